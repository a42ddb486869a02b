//! Our own eyes inside the crate: a source that notes what is asked of it, and
//! readers of the tokens and of the timer wheel.

use std::cell::RefCell;
use std::rc::Rc;

use witness::Note;

use crate::sources::timer::TimerWheel;
use crate::{EventSource, Poll, PostAction, Readiness, RegistrationToken, Token, TokenFactory};

thread_local! {
    static WHEEL: RefCell<Option<Rc<RefCell<TimerWheel>>>> = const { RefCell::new(None) };
}

/// A source that notes each `process_events` and else only hands on.
pub struct Watched<S>(pub S);

impl<S: EventSource> EventSource for Watched<S> {
    type Event = S::Event;
    type Metadata = S::Metadata;
    type Ret = S::Ret;
    type Error = S::Error;

    fn process_events<F>(
        &mut self,
        readiness: Readiness,
        token: Token,
        callback: F,
    ) -> Result<PostAction, S::Error>
    where
        F: FnMut(S::Event, &mut S::Metadata) -> S::Ret,
    {
        witness::write(Note::Delivered(usize::from(token.inner) as u64));
        self.0.process_events(readiness, token, callback)
    }

    fn register(&mut self, poll: &mut Poll, factory: &mut TokenFactory) -> crate::Result<()> {
        // The wheel can be reached from here only, so it is kept in sight.
        WHEEL.set(Some(poll.timers.clone()));
        self.0.register(poll, factory)
    }

    fn reregister(&mut self, poll: &mut Poll, factory: &mut TokenFactory) -> crate::Result<()> {
        self.0.reregister(poll, factory)
    }

    fn unregister(&mut self, poll: &mut Poll) -> crate::Result<()> {
        self.0.unregister(poll)
    }
}

/// An entry of the timer wheel. The order is that of the deadlines.
#[derive(Clone, Debug, PartialEq, Eq, PartialOrd, Ord)]
pub struct Timeout {
    seconds: u64,
    nanoseconds: u64,
    pub key: u64,
    counter: u64,
}

/// The wheel's own text of itself, empty before the first registration. Its
/// entries are private, so this text is the only way to see them.
pub fn wheel() -> String {
    WHEEL.with_borrow(|wheel| match wheel {
        Some(wheel) => format!("{:?}", wheel.borrow()),
        None => String::new(),
    })
}

/// The entries in such a text.
pub fn timeouts(text: &str) -> Vec<Timeout> {
    let Some((_, rest)) = text.split_once('[') else {
        return Vec::new();
    };
    let (heap, _) = rest.rsplit_once(']').expect("a list that ends");
    let numbers = numbers(heap);
    assert!(numbers.len() % 6 == 0, "not six numbers an entry: {text}");
    numbers.chunks(6).map(timeout).collect()
}

fn timeout(n: &[u64]) -> Timeout {
    Timeout {
        seconds: n[0],
        nanoseconds: n[1],
        key: (n[2] << 32) + (n[3] << 16) + n[4],
        counter: n[5],
    }
}

/// The id and version of a source, from the token's text of itself.
pub fn id_and_version(token: &RegistrationToken) -> (u64, u64) {
    let numbers = numbers(&format!("{token:?}"));
    assert!(numbers.len() == 3, "not three numbers a token: {token:?}");
    (numbers[0], numbers[1])
}

/// The decimal numbers in a text, in order.
fn numbers(text: &str) -> Vec<u64> {
    text.split(|c: char| !c.is_ascii_digit())
        .filter(|digits| !digits.is_empty())
        .map(|digits| digits.parse().expect("a number of 64 bits"))
        .collect()
}
