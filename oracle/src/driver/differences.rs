//! What calloop does in the rows of docs/DIFFERENCES.md that are marked +: no form of a script leads there.

use std::cell::Cell;
use std::io::{self, ErrorKind};
use std::os::fd::RawFd;
use std::rc::Rc;
use std::time::Duration;

use calloop::generic::{FdWrapper, Generic};
use calloop::{
    Error, EventLoop, EventSource, Interest, LoopHandle, Mode, Poll, PostAction, Readiness,
    RegistrationToken, Token, TokenFactory,
};
use witness::Step;

use crate::clock;

type File = Generic<FdWrapper<RawFd>>;

fn over(file: RawFd, mode: Mode) -> File {
    // SAFETY: no system call is ever made on the number.
    Generic::new(unsafe { FdWrapper::new(file) }, Interest::READ, mode)
}

/// A source over a file that wants hooks. Its hook may have an event of its own, under a second token.
struct Hooked<F> {
    file: File,
    token: Option<Token>,
    hook: F,
}

impl<F: FnMut() -> bool> EventSource for Hooked<F> {
    type Event = ();
    type Metadata = ();
    type Ret = ();
    type Error = io::Error;

    const NEEDS_EXTRA_LIFECYCLE_EVENTS: bool = true;

    fn process_events<G>(&mut self, _: Readiness, _: Token, _: G) -> io::Result<PostAction>
    where
        G: FnMut((), &mut ()),
    {
        Ok(PostAction::Continue)
    }

    fn register(&mut self, poll: &mut Poll, factory: &mut TokenFactory) -> calloop::Result<()> {
        self.file.register(poll, factory)?;
        self.token = Some(factory.token());
        Ok(())
    }

    fn reregister(&mut self, poll: &mut Poll, factory: &mut TokenFactory) -> calloop::Result<()> {
        self.file.reregister(poll, factory)?;
        self.token = Some(factory.token());
        Ok(())
    }

    fn unregister(&mut self, poll: &mut Poll) -> calloop::Result<()> {
        self.file.unregister(poll)
    }

    fn before_sleep(&mut self) -> calloop::Result<Option<(Readiness, Token)>> {
        let event = self.token.map(|token| (Readiness::EMPTY, token));
        Ok(event.filter(|_| (self.hook)()))
    }
}

fn hooked<F: FnMut() -> bool>(file: RawFd, hook: F) -> Hooked<F> {
    Hooked {
        file: over(file, Mode::Level),
        token: None,
        hook,
    }
}

/// A loop whose clock stands at 0, with nothing planned and no file ready.
fn new_loop() -> (EventLoop<'static, ()>, LoopHandle<'static, ()>) {
    clock::set(0);
    witness::set_plan(vec![]);
    witness::set_ready(vec![]);
    let event_loop = EventLoop::try_new().expect("a new loop");
    let handle = event_loop.handle();
    (event_loop, handle)
}

fn insert<S: EventSource<Ret = ()> + 'static>(
    handle: &LoopHandle<'static, ()>,
    source: S,
) -> Option<RegistrationToken> {
    handle.insert_source(source, |_, _, _| ()).ok()
}

/// The code of the poller's fault, where that is the answer.
fn fault(answer: calloop::Result<()>) -> Option<u32> {
    match answer {
        Err(Error::IoError(fault)) => Some(fault.get_ref()?.downcast_ref::<witness::Fault>()?.0),
        _ => None,
    }
}

fn wait(event_loop: &mut EventLoop<'static, ()>, timeout: Option<u64>) -> calloop::Result<()> {
    event_loop.dispatch(timeout.map(Duration::from_nanos), &mut ())
}

/// An entry in Edge mode would be reported twice here.
#[test]
fn edge_goes_down_as_one_shot() {
    let (mut event_loop, handle) = new_loop();
    let rung = Rc::new(Cell::new(0));
    let counts = rung.clone();
    let rings = move |_: Readiness, _: &mut _, _: &mut ()| {
        counts.set(counts.get() + 1);
        Ok(PostAction::Continue)
    };
    handle.insert_source(over(7, Mode::Edge), rings).unwrap();
    for _ in 0..2 {
        witness::set_ready(vec![7]);
        wait(&mut event_loop, None).unwrap();
    }
    assert_eq!(rung.get(), 1);
}

/// A source that draws this many tokens.
struct Drawing(u32);

impl EventSource for Drawing {
    type Event = ();
    type Metadata = ();
    type Ret = ();
    type Error = io::Error;

    fn process_events<G>(&mut self, _: Readiness, _: Token, _: G) -> io::Result<PostAction>
    where
        G: FnMut((), &mut ()),
    {
        Ok(PostAction::Continue)
    }

    fn register(&mut self, _: &mut Poll, factory: &mut TokenFactory) -> calloop::Result<()> {
        for _ in 0..self.0 {
            factory.token();
        }
        Ok(())
    }

    fn reregister(&mut self, _: &mut Poll, _: &mut TokenFactory) -> calloop::Result<()> {
        Ok(())
    }

    fn unregister(&mut self, _: &mut Poll) -> calloop::Result<()> {
        Ok(())
    }
}

#[test]
fn it_draws_65535_tokens() {
    assert!(insert(&new_loop().1, Drawing(65_535)).is_some());
}

#[test]
#[should_panic(expected = "Maximum number of sub-ids")]
fn the_next_token_panics() {
    insert(&new_loop().1, Drawing(65_536));
}

/// A third wait would fail.
#[test]
fn two_interruptions_end_a_wait_early() {
    let (mut event_loop, handle) = new_loop();
    let later = || {
        clock::set(1);
        false
    };
    insert(&handle, hooked(7, later)).unwrap();
    witness::set_plan(vec![Step::Interrupt, Step::Interrupt, Step::Fail(4)]);
    assert!(wait(&mut event_loop, Some(2)).is_ok());
}

/// With a timeout of 0 the interruption would end the second dispatch.
#[test]
fn it_sleeps_on_an_event_of_a_hook() {
    let (mut event_loop, handle) = new_loop();
    let token = insert(&handle, hooked(7, || true)).unwrap();
    witness::set_plan(vec![
        Step::Fail(4),
        Step::Work,
        Step::Interrupt,
        Step::Fail(5),
    ]);
    assert_eq!(fault(wait(&mut event_loop, None)), Some(4));
    handle.disable(&token).unwrap();
    assert_eq!(fault(wait(&mut event_loop, None)), Some(5));
}

#[test]
fn a_pending_action_goes_to_the_next_source() {
    let (mut event_loop, handle) = new_loop();
    let own = Rc::new(Cell::new(None));
    let (asking, asked) = (own.clone(), handle.clone());
    let fails = move |_: Readiness, _: &mut _, _: &mut ()| {
        asked.disable(&asking.get().unwrap()).unwrap();
        Err(ErrorKind::Other.into())
    };
    let first = handle.insert_source(over(7, Mode::Level), fails).unwrap();
    own.set(Some(first));
    let second = handle
        .insert_source(over(8, Mode::Level), |_, _, _| Ok(PostAction::Continue))
        .unwrap();
    witness::set_ready(vec![7]);
    assert!(wait(&mut event_loop, None).is_err());
    witness::set_ready(vec![8]);
    assert!(wait(&mut event_loop, None).is_ok());
    // the second is disabled, and the first is not
    assert!(handle.enable(&second).is_ok());
    assert!(handle.enable(&first).is_err());
}

#[test]
#[should_panic(expected = "unreachable")]
fn a_failed_insert_leaves_a_lifecycle_entry() {
    let (mut event_loop, handle) = new_loop();
    insert(&handle, hooked(7, || false)).unwrap();
    assert!(insert(&handle, hooked(7, || false)).is_none());
    let _ = wait(&mut event_loop, None);
}

#[test]
#[should_panic(expected = "unreachable")]
fn a_letting_go_leaves_a_lifecycle_entry() {
    let (mut event_loop, handle) = new_loop();
    let token = insert(&handle, hooked(7, || false)).unwrap();
    witness::set_plan(vec![Step::Fail(4)]);
    handle.remove(token);
    let _ = wait(&mut event_loop, None);
}

#[test]
#[should_panic(expected = "already borrowed")]
fn a_source_enables_itself() {
    let (mut event_loop, handle) = new_loop();
    let own = Rc::new(Cell::new(None));
    let (asking, asked) = (own.clone(), handle.clone());
    let enables = move |_: Readiness, _: &mut _, _: &mut ()| {
        asked.enable(&asking.get().unwrap()).unwrap();
        Ok(PostAction::Continue)
    };
    let token = handle.insert_source(over(7, Mode::Level), enables).unwrap();
    own.set(Some(token));
    witness::set_ready(vec![7]);
    let _ = wait(&mut event_loop, None);
}

#[test]
fn a_65th_idle_waits() {
    let (mut event_loop, handle) = new_loop();
    let run = Rc::new(Cell::new(0));
    for _ in 0..65 {
        let run = run.clone();
        handle.insert_idle(move |_| run.set(run.get() + 1));
    }
    wait(&mut event_loop, None).unwrap();
    assert_eq!(run.get(), 65);
}

#[test]
fn a_129th_lifecycle_entry_is_accepted() {
    let (mut event_loop, handle) = new_loop();
    let asked = Rc::new(Cell::new(0));
    let counts = asked.clone();
    let token = insert(
        &handle,
        hooked(7, move || {
            counts.set(counts.get() + 1);
            false
        }),
    );
    for _ in 0..128 {
        handle.update(&token.unwrap()).unwrap();
    }
    wait(&mut event_loop, None).unwrap();
    assert_eq!(asked.get(), 129);
}

#[test]
fn a_129th_event_of_hooks_is_accepted() {
    let (mut event_loop, handle) = new_loop();
    insert(&handle, hooked(7, || true)).unwrap();
    for _ in 0..129 {
        witness::set_plan(vec![Step::Fail(4)]);
        assert_eq!(fault(wait(&mut event_loop, None)), Some(4));
    }
    assert!(wait(&mut event_loop, None).is_ok());
}
