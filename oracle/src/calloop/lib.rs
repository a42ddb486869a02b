//! The crate root in which the given sources are compiled. It names their
//! modules and adds one of our own, which sees what only the crate may see.

pub mod error;
pub mod io;
mod list;
mod loop_logic;
mod sources;
mod sys;
mod token;
pub mod watch;

pub use error::{Error, InsertError, Result};
pub use loop_logic::{EventLoop, LoopHandle, LoopSignal, RegistrationToken, WeakLoopHandle};
pub use sources::*;
pub use sys::{Interest, Mode, Poll, Readiness, Token, TokenFactory};
