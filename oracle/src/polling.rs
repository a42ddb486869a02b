//! Stands in for the crate `polling`: a list of entries with distinct files,
//! no level mode, and readiness and faults that come from the script alone.

use std::io::{Error, ErrorKind, Result};
use std::os::fd::{AsFd, AsRawFd, BorrowedFd, RawFd};
use std::sync::{Mutex, MutexGuard};
use std::time::Duration;

use witness::{Fault, Note, Step};

/// How many entries may stand.
const ROOM: usize = 256;

#[derive(Clone, Copy, Debug, PartialEq, Eq)]
pub enum PollMode {
    Oneshot,
    Level,
    Edge,
}

#[derive(Clone, Copy, Debug, PartialEq, Eq)]
pub struct Event {
    pub key: usize,
    pub readable: bool,
    pub writable: bool,
}

impl Event {
    pub fn none(key: usize) -> Event {
        Event {
            key,
            readable: false,
            writable: false,
        }
    }
}

/// The events of one wait.
#[derive(Default)]
pub struct Events(Vec<Event>);

impl Events {
    pub fn new() -> Events {
        Events::default()
    }

    pub fn clear(&mut self) {
        self.0.clear();
    }

    pub fn iter(&self) -> impl Iterator<Item = Event> + '_ {
        self.0.iter().copied()
    }
}

#[derive(Debug)]
struct Entry {
    file: RawFd,
    interest: Event,
    mode: PollMode,
    armed: bool,
}

#[derive(Debug)]
pub struct Poller {
    entries: Mutex<Vec<Entry>>,
}

impl Poller {
    pub fn new() -> Result<Poller> {
        Ok(Poller {
            entries: Mutex::new(Vec::new()),
        })
    }

    /// Never: the loop then emulates level mode by one-shot and re-arming.
    pub fn supports_level(&self) -> bool {
        false
    }

    /// # Safety
    /// None is needed here; the mark is that of the crate stood in for.
    pub unsafe fn add_with_mode(&self, file: RawFd, interest: Event, mode: PollMode) -> Result<()> {
        let fate = next_fate();
        let mut entries = self.entries();
        if entries.iter().any(|entry| entry.file == file) {
            return Err(ErrorKind::AlreadyExists.into());
        }
        if entries.len() >= ROOM {
            return Err(ErrorKind::StorageFull.into());
        }
        fate?;
        entries.push(Entry {
            file,
            interest,
            mode,
            armed: true,
        });
        Ok(())
    }

    pub fn modify(&self, file: impl AsFd, interest: Event) -> Result<()> {
        self.modify_with_mode(file, interest, PollMode::Oneshot)
    }

    pub fn modify_with_mode(&self, file: impl AsFd, interest: Event, mode: PollMode) -> Result<()> {
        let fate = next_fate();
        let mut entries = self.entries();
        let at = position(&entries, file)?;
        fate?;
        entries[at].interest = interest;
        entries[at].mode = mode;
        entries[at].armed = true;
        Ok(())
    }

    pub fn delete(&self, file: impl AsFd) -> Result<()> {
        let fate = next_fate();
        let mut entries = self.entries();
        let at = position(&entries, file)?;
        fate?;
        entries.remove(at);
        Ok(())
    }

    /// Never blocks: what is not ready now cannot become so during the wait.
    /// One that fails or is interrupted leaves what is ready.
    pub fn wait(&self, events: &mut Events, _timeout: Option<Duration>) -> Result<usize> {
        match witness::next_step() {
            Step::Fail(code) => return Err(Error::other(Fault(code))),
            Step::Interrupt => return Err(ErrorKind::Interrupted.into()),
            Step::Work => {}
        }
        let mut entries = self.entries();
        let mut tried = Vec::new();
        for file in witness::take_ready() {
            // A file listed again reports nothing, whatever its mode.
            if tried.contains(&file) {
                continue;
            }
            tried.push(file);
            events.0.extend(report(&mut entries, file));
        }
        for event in &events.0 {
            witness::write(Note::Reported(event.key as u64));
        }
        Ok(events.0.len())
    }

    /// Nobody waits in another thread, so there is nobody to wake.
    pub fn notify(&self) -> Result<()> {
        Ok(())
    }

    fn entries(&self) -> MutexGuard<'_, Vec<Entry>> {
        self.entries.lock().unwrap()
    }
}

/// Whether the next add, modify or delete works past its own checks. Such a call
/// takes its step before them and cannot be interrupted.
fn next_fate() -> Result<()> {
    match witness::next_step() {
        Step::Fail(code) => Err(Error::other(Fault(code))),
        Step::Work | Step::Interrupt => Ok(()),
    }
}

fn position(entries: &[Entry], file: impl AsFd) -> Result<usize> {
    let file = file.as_fd().as_raw_fd();
    entries
        .iter()
        .position(|entry| entry.file == file)
        .ok_or_else(|| Error::from(ErrorKind::NotFound))
}

/// The event of a ready file, if an armed entry wants reads of it.
fn report(entries: &mut [Entry], file: RawFd) -> Option<Event> {
    let entry = entries
        .iter_mut()
        .find(|entry| entry.file == file && entry.armed && entry.interest.readable)?;
    if entry.mode == PollMode::Oneshot {
        entry.armed = false;
    }
    Some(Event {
        readable: true,
        ..Event::none(entry.interest.key)
    })
}

impl AsRawFd for Poller {
    fn as_raw_fd(&self) -> RawFd {
        unimplemented!("the stand-in poller has no file of its own")
    }
}

impl AsFd for Poller {
    fn as_fd(&self) -> BorrowedFd<'_> {
        unimplemented!("the stand-in poller has no file of its own")
    }
}
