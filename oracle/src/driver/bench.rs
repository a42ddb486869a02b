//! Runs calls on a real event loop and tells what came of them.

use std::io::{self, ErrorKind};
use std::os::fd::RawFd;
use std::time::Duration;

use calloop::generic::{FdWrapper, Generic};
use calloop::timer::{TimeoutAction, Timer};
use calloop::watch::{self, Timeout, Watched};
use calloop::{
    Error, EventLoop, EventSource, InsertError, Interest, LoopHandle, Mode, PostAction,
    RegistrationToken,
};
use witness::{Entry, Fault, Note};

use crate::clock;
use crate::script::Call;

const BAD_FORM: u32 = 7;
const STALE: &str = "Received an event for non-existent source";
const LEAVING: &str = "Removing source";

type Accepted<S> = Result<RegistrationToken, InsertError<S>>;

pub struct Bench {
    event_loop: EventLoop<'static, ()>,
    handle: LoopHandle<'static, ()>,
    /// The tokens of the accepted inserts.
    accepted: Vec<RegistrationToken>,
    /// The script's files; a file's place here is its number for the loop.
    files: Vec<u32>,
}

impl Bench {
    pub fn new() -> Bench {
        let event_loop = EventLoop::try_new().expect("a new loop");
        let handle = event_loop.handle();
        Bench {
            event_loop,
            handle,
            accepted: Vec::new(),
            files: Vec::new(),
        }
    }

    /// Does one call, if the line had a form, and answers the line to print.
    pub fn run(&mut self, call: Option<Call>) -> String {
        match call {
            Some(Call::Timer { deadline, period }) => self.timer(deadline, period),
            Some(Call::Generic { file, answer }) => self.generic(file, answer),
            Some(Call::Enable(n)) => self.told(n, |handle, token| handle.enable(token)),
            Some(Call::Update(n)) => self.told(n, |handle, token| handle.update(token)),
            Some(Call::Disable(n)) => self.told(n, |handle, token| handle.disable(token)),
            Some(Call::Remove(n)) => self.remove(n),
            Some(Call::Wait { clock, ready }) => self.wait(clock, &ready),
            Some(Call::Plan(steps)) => {
                witness::set_plan(steps);
                "(ok)".into()
            }
            None => refusal(BAD_FORM),
        }
    }

    fn timer(&mut self, deadline: u64, period: u64) -> String {
        let source = Timer::from_deadline(clock::instant(deadline));
        let inserted = self
            .handle
            .insert_source(Watched(source), move |_, _, _| match period {
                0 => TimeoutAction::Drop,
                _ => TimeoutAction::ToDuration(Duration::from_nanos(period)),
            });
        self.inserted(inserted)
    }

    fn generic(&mut self, file: u32, answer: PostAction) -> String {
        let source = readable(self.number(file));
        let inserted = self
            .handle
            .insert_source(Watched(source), move |_, _, _| Ok(answer));
        self.inserted(inserted)
    }

    fn inserted<S: EventSource>(&mut self, answer: Accepted<S>) -> String {
        match answer {
            Ok(token) => {
                self.accepted.push(token);
                let (id, version) = watch::id_and_version(&token);
                format!("(ok {id} {version})")
            }
            Err(refused) => refusal(number_of(&refused.error)),
        }
    }

    fn told(
        &mut self,
        n: u64,
        call: impl Fn(&LoopHandle<'static, ()>, &RegistrationToken) -> calloop::Result<()>,
    ) -> String {
        let Some(token) = self.nth(n) else {
            return refusal(BAD_FORM);
        };
        match call(&self.handle, &token) {
            Ok(()) => "(ok)".into(),
            Err(error) => refusal(number_of(&error)),
        }
    }

    fn remove(&mut self, n: u64) -> String {
        let Some(token) = self.nth(n) else {
            return refusal(BAD_FORM);
        };
        witness::take_record();
        self.handle.remove(token);
        // The call answers nothing, but logs when it takes a source out.
        let record = witness::take_record();
        let left = record.iter().any(|entry| said(entry, LEAVING).is_some());
        if left { "(ok)" } else { "(none)" }.into()
    }

    fn wait(&mut self, clock: u64, ready: &[u32]) -> String {
        clock::set(clock);
        let ready = ready.iter().map(|&file| self.number(file)).collect();
        witness::set_ready(ready);
        self.dispatch()
    }

    fn dispatch(&mut self) -> String {
        let before = watch::wheel();
        // What earlier calls left in the record is no part of this dispatch.
        witness::take_record();
        witness::set_probe(Some(watch::wheel));
        let answer = self.event_loop.dispatch(None, &mut ());
        witness::set_probe(None);
        let record = witness::take_record();
        let taken = taken(&before, &record);
        let lines = lines(&record, taken);
        let lost = lines.iter().any(|line| line.ends_with("l)"));
        assert!(!lost || answer.is_err(), "lost without a fault: {lines:?}");
        let sheet = format!("(sheet{})", lines.concat());
        match answer {
            Ok(()) => sheet,
            Err(error) => format!("{sheet} {}", refusal(number_of(&error))),
        }
    }

    fn nth(&self, n: u64) -> Option<RegistrationToken> {
        self.accepted.get(usize::try_from(n).ok()?).copied()
    }

    /// The loop's number for a file. Numbers from 0 keep clear of -1, which no
    /// file descriptor may be and a file of the script may.
    fn number(&mut self, file: u32) -> RawFd {
        let known = self.files.iter().position(|&f| f == file);
        let place = known.unwrap_or_else(|| {
            self.files.push(file);
            self.files.len() - 1
        });
        place as RawFd
    }
}

fn readable(number: RawFd) -> Generic<FdWrapper<RawFd>> {
    // SAFETY: no system call is ever made on the number.
    let file = unsafe { FdWrapper::new(number) };
    Generic::new(file, Interest::READ, Mode::Level)
}

/// The timers that the wheel handed out: those that stood in it before the
/// dispatch and no longer did when the first event had its turn. No turn, and
/// so no change to the wheel but the handing out, lies between.
fn taken(before: &str, record: &[Entry]) -> Vec<Timeout> {
    let first_turn = record
        .iter()
        .find(|entry| !matches!(entry.note, Note::Reported(_)));
    let after = match first_turn {
        Some(entry) => entry.timers.clone(),
        None => watch::wheel(),
    };
    let mut after = watch::timeouts(&after);
    let mut taken = watch::timeouts(before);
    taken.retain(|timeout| take_one(&mut after, |other| other == timeout).is_none());
    taken.sort();
    taken
}

/// The lines of the sheet: the reported events in their order, each with the
/// verdict of its turn, then the timers, those that had a turn first.
fn lines(record: &[Entry], mut taken: Vec<Timeout>) -> Vec<String> {
    let mut turns = record.iter().filter_map(turn);
    let mut lines = Vec::new();
    for key in record.iter().filter_map(reported) {
        let verdict = turns.next().map_or('l', |(other, verdict)| {
            assert!(same_source(key, other), "a turn out of order: {record:?}");
            verdict
        });
        lines.push(format!(" (P {key} {verdict})"));
    }
    for (key, verdict) in turns {
        let timeout = take_one(&mut taken, |timeout| same_source(timeout.key, key))
            .unwrap_or_else(|| panic!("a turn of no event: {record:?}"));
        lines.push(format!(" (T {} {verdict})", timeout.key));
    }
    for timeout in taken {
        lines.push(format!(" (T {} l)", timeout.key));
    }
    lines
}

fn reported(entry: &Entry) -> Option<u64> {
    match entry.note {
        Note::Reported(key) => Some(key),
        _ => None,
    }
}

/// The key and verdict of an event that had its turn.
fn turn(entry: &Entry) -> Option<(u64, char)> {
    match entry.note {
        Note::Delivered(key) => Some((key, 'd')),
        _ => said(entry, STALE).map(|key| (key, 's')),
    }
}

fn said(entry: &Entry, wanted: &str) -> Option<u64> {
    match &entry.note {
        Note::Said(message, number) if message == wanted => Some(*number),
        _ => None,
    }
}

/// A stale event is logged without its sub-id, so that is left out.
fn same_source(key: u64, other: u64) -> bool {
    key >> 16 == other >> 16
}

fn take_one<T>(list: &mut Vec<T>, wanted: impl Fn(&T) -> bool) -> Option<T> {
    let at = list.iter().position(wanted)?;
    Some(list.remove(at))
}

fn refusal(number: u32) -> String {
    format!("(no {number})")
}

fn number_of(error: &Error) -> u32 {
    match error {
        Error::InvalidToken => 1,
        Error::IoError(fault) => match fault.kind() {
            ErrorKind::AlreadyExists => 11,
            ErrorKind::NotFound => 12,
            ErrorKind::StorageFull => 13,
            _ if is_planned(fault) => 14,
            _ => panic!("a fault without a number: {fault:?}"),
        },
        // No source of a script fails by itself; those of the tests do.
        Error::OtherError(_) => 10,
    }
}

/// Whether a plan made the poller fail.
fn is_planned(fault: &io::Error) -> bool {
    fault.get_ref().is_some_and(|cause| cause.is::<Fault>())
}

#[cfg(test)]
mod tests {
    use super::*;

    /// No source of a script fails, so one that does is put in by hand.
    #[test]
    fn a_fault_loses_the_later_events() {
        let mut bench = Bench::new();
        let source = readable(bench.number(5));
        let failing = bench
            .handle
            .insert_source(Watched(source), |_, _, _| Err(ErrorKind::Other.into()));
        assert_eq!(bench.inserted(failing), "(ok 0 0)");
        assert_eq!(bench.generic(6, PostAction::Continue), "(ok 1 0)");
        assert_eq!(bench.generic(7, PostAction::Continue), "(ok 2 0)");
        assert_eq!(bench.timer(9, 0), "(ok 3 0)");
        assert_eq!(bench.timer(8, 0), "(ok 4 0)");
        assert_eq!(bench.timer(11, 0), "(ok 5 0)");
        assert_eq!(
            bench.wait(10, &[6, 5, 7]),
            "(sheet (P 4294967296 d) (P 0 d) (P 8589934592 l) \
             (T 17179869184 l) (T 12884901888 l)) (no 10)"
        );
        assert_eq!(
            bench.wait(11, &[7]),
            "(sheet (P 8589934592 d) (T 21474836480 d))"
        );
    }

    #[test]
    fn the_clock_ends_where_an_instant_does() {
        let late = clock::instant(u64::MAX - 6);
        assert_eq!(
            late.checked_add(Duration::from_nanos(6)),
            Some(clock::instant(u64::MAX))
        );
        assert_eq!(late.checked_add(Duration::from_nanos(7)), None);
        let whole = Duration::from_nanos(u64::MAX);
        assert_eq!(
            clock::instant(u64::MAX).duration_since(clock::instant(0)),
            whole
        );
    }
}
