//! What the stand-ins and the driver share: the files made ready for the next
//! wait, what the poller's next calls come to, and a record of what the loop was
//! seen to do, in order.

use std::cell::{Cell, RefCell};
use std::collections::VecDeque;
use std::error::Error;
use std::fmt;

/// One thing that was seen.
#[derive(Clone, Debug, PartialEq)]
pub enum Note {
    /// The poller reported an event with this key.
    Reported(u64),
    /// `process_events` of a source was called with this token, as a key.
    Delivered(u64),
    /// The loop logged this message, with this number attached.
    Said(String, u64),
}

/// A note, and how the loop's timers stood when it was written.
#[derive(Clone, Debug)]
pub struct Entry {
    pub note: Note,
    pub timers: String,
}

/// What one call of the poller comes to.
#[derive(Clone, Copy, Debug, PartialEq, Eq)]
pub enum Step {
    Work,
    /// The call fails with this code.
    Fail(u32),
    /// A wait is interrupted; any other call works.
    Interrupt,
}

/// A fault of the poller, by its code. It is a type of its own and no number of
/// the system's, since one of those means an interruption.
#[derive(Debug)]
pub struct Fault(pub u32);

impl fmt::Display for Fault {
    fn fmt(&self, f: &mut fmt::Formatter) -> fmt::Result {
        write!(f, "the poller fails with {}", self.0)
    }
}

impl Error for Fault {}

thread_local! {
    static READY: RefCell<Vec<i32>> = const { RefCell::new(Vec::new()) };
    static PLAN: RefCell<VecDeque<Step>> = const { RefCell::new(VecDeque::new()) };
    static RECORD: RefCell<Vec<Entry>> = const { RefCell::new(Vec::new()) };
    static PROBE: Cell<Option<fn() -> String>> = const { Cell::new(None) };
}

/// Makes these files ready for the next wait.
pub fn set_ready(files: Vec<i32>) {
    READY.set(files);
}

/// Takes the files made ready; a second wait finds none.
pub fn take_ready() -> Vec<i32> {
    READY.take()
}

/// Plans the poller's next calls, one step a call, in place of what was planned.
pub fn set_plan(steps: Vec<Step>) {
    PLAN.set(steps.into());
}

/// Takes the step of one call. Past the plan's end every call works.
pub fn next_step() -> Step {
    PLAN.with_borrow_mut(|plan| plan.pop_front().unwrap_or(Step::Work))
}

/// Says how to read the loop's timers; without it notes carry an empty text.
pub fn set_probe(probe: Option<fn() -> String>) {
    PROBE.set(probe);
}

/// Adds a note to the record.
pub fn write(note: Note) {
    let timers = PROBE.get().map(|probe| probe()).unwrap_or_default();
    RECORD.with_borrow_mut(|record| record.push(Entry { note, timers }));
}

/// Takes the record, which is then empty.
pub fn take_record() -> Vec<Entry> {
    RECORD.take()
}
