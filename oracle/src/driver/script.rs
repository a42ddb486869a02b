//! The forms of a script line. Single spaces, decimal numbers without leading
//! zeros, nothing before or after.

use std::str::FromStr;

use calloop::PostAction;
use witness::Step;

pub enum Call {
    Timer { deadline: u64, period: u64 },
    Generic { file: u32, answer: PostAction },
    Enable(u64),
    Update(u64),
    Disable(u64),
    Remove(u64),
    Wait { clock: u64, ready: Vec<u32> },
    /// What the poller's next calls come to.
    Plan(Vec<Step>),
}

/// The call that a line names, if it has a form.
pub fn parse(line: &[u8]) -> Option<Call> {
    let line = std::str::from_utf8(line).ok()?;
    let inside = line.strip_prefix('(')?.strip_suffix(')')?;
    let (letter, rest) = inside.split_once(' ')?;
    match letter {
        "T" => timer(rest),
        "G" => generic(rest),
        "E" => Some(Call::Enable(number(rest)?)),
        "U" => Some(Call::Update(number(rest)?)),
        "D" => Some(Call::Disable(number(rest)?)),
        "R" => Some(Call::Remove(number(rest)?)),
        "W" => wait(rest),
        "P" => Some(Call::Plan(list(rest, step)?)),
        _ => None,
    }
}

fn timer(rest: &str) -> Option<Call> {
    let (deadline, period) = rest.split_once(' ')?;
    Some(Call::Timer {
        deadline: number(deadline)?,
        period: number(period)?,
    })
}

fn generic(rest: &str) -> Option<Call> {
    let (file, letter) = rest.split_once(' ')?;
    let answer = match letter {
        "C" => PostAction::Continue,
        "R" => PostAction::Reregister,
        "D" => PostAction::Disable,
        "X" => PostAction::Remove,
        _ => return None,
    };
    let file = number(file)?;
    Some(Call::Generic { file, answer })
}

fn wait(rest: &str) -> Option<Call> {
    let (clock, files) = rest.split_once(' ')?;
    Some(Call::Wait {
        clock: number(clock)?,
        ready: list(files, number)?,
    })
}

fn step(text: &str) -> Option<Step> {
    match text {
        "w" => Some(Step::Work),
        "i" => Some(Step::Interrupt),
        code => Some(Step::Fail(number(code)?)),
    }
}

/// The items between two parentheses.
fn list<T>(text: &str, item: fn(&str) -> Option<T>) -> Option<Vec<T>> {
    match text.strip_prefix('(')?.strip_suffix(')')? {
        "" => Some(Vec::new()),
        items => items.split(' ').map(item).collect(),
    }
}

/// A number that fits its type.
fn number<N: FromStr>(text: &str) -> Option<N> {
    let leading_zero = text.len() > 1 && text.starts_with('0');
    if leading_zero || !text.bytes().all(|c| c.is_ascii_digit()) {
        return None;
    }
    text.parse().ok()
}
