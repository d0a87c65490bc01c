//! A polling engine for programmable controllers: it decides which tags are read in which round, merges what comes back,
//! and says what changed. The engine is proved code in an archive that `oracle/archive.sh capi` writes; this crate is a safe
//! wrapper over it. `WORDZIKE_LIB` names the archive if it is elsewhere than `target/staticlib/libcapi.a`.
//!
//! `docs/HOST.md` is a guide for hosts, and `examples/board` is one.
//!
//! The host does all input and output. [`Engine::step`] takes one answer, and gives one request or one event:
//!
//! ```
//! use wordzike::{Answer, Engine, Event, Options, Quality, Reply, Request, Setting, State, Value};
//!
//! // two tags; a round each second, a turn through tier 2 in 10 s
//! let options = Options { cycle: 1.0, period: 10.0, grace: 5.0 };
//! let settings = [Setting { deadband: 0.5, ..Setting::default() }, Setting::default()];
//! let mut engine = Engine::new(&["Speed", "Track"], options, &settings, &[])?;
//! engine.set_tier(0.0, 0, 1)?;
//!
//! // the clock in seconds, the wall time in milliseconds, and the answer
//! assert_eq!(engine.step(0.0, 1000, Answer::Begin)?, Reply::Request(Request::Connect));
//! assert_eq!(engine.step(0.0, 1000, Answer::Opened)?, Reply::Request(Request::Version));
//! let status = engine.step(0.0, 1000, Answer::Version(Some(1), &settings))?;
//! assert_eq!(status, Reply::Event(Event::Status(State::Connected)));
//! assert_eq!(engine.step(0.0, 1000, Answer::Taken)?, Reply::Request(Request::Read(vec![0])));
//!
//! let Reply::Event(Event::Values(changes)) = engine.step(0.25, 1250, Answer::Results(&[Ok(Value::Float(9.5))]))? else {
//!     panic!("a first reading is told");
//! };
//! let (tag, entry) = changes[0];
//! assert_eq!((tag, entry.value, entry.quality, entry.time), (0, Value::Float(9.5), Quality::Good, 1250));
//!
//! assert_eq!(engine.step(0.25, 1250, Answer::Taken)?, Reply::Request(Request::Describe(vec![0])));
//! assert_eq!(engine.step(0.25, 1250, Answer::Descriptions(&[None]))?, Reply::Event(Event::Info(vec![0])));
//! assert_eq!(engine.step(0.25, 1250, Answer::Taken)?, Reply::Request(Request::Version));
//! assert_eq!(engine.step(0.25, 1250, Answer::Version(Some(1), &settings))?, Reply::Request(Request::Wait(0.75)));
//! # Ok::<(), wordzike::Refusal>(())
//! ```
//!
//! A write can be queued at any time while the state is connected; a host that waits ends the wait, so that it goes out:
//!
//! ```
//! # use wordzike::{Answer, Engine, Event, Options, Outcome, Reply, Request, Setting, Value};
//! # let settings = [Setting::default()];
//! # let mut engine = Engine::new(&["Speed"], Options { cycle: 1.0, ..Options::default() }, &settings, &[])?;
//! # for answer in [Answer::Begin, Answer::Opened, Answer::Version(None, &settings), Answer::Taken] {
//! #     engine.step(0.0, 0, answer)?;
//! # }
//! # engine.step(0.0, 0, Answer::Version(None, &settings))?;
//! engine.write(0, Value::Int(80))?;
//! assert_eq!(engine.step(0.5, 500, Answer::Waited)?, Reply::Request(Request::Write(0, Value::Int(80))));
//! assert_eq!(engine.step(0.5, 500, Answer::Written)?, Reply::Request(Request::ReadBack(vec![0])));
//! let outcome = engine.step(0.5, 500, Answer::Results(&[Ok(Value::Int(80))]))?;
//! assert_eq!(outcome, Reply::Event(Event::Outcome(0, Outcome::Written(Value::Int(80)))));
//! # Ok::<(), wordzike::Refusal>(())
//! ```
#![deny(unsafe_code)]

mod engine;
#[allow(unsafe_code)]
pub mod ffi;
mod refusal;
mod values;

pub use engine::{
    Answer, Engine, Event, GROUPS, GroupStats, INTERFACE, Outcome, Reply, Request, State, Stats, TAGS, Tag, interface,
    memory_size,
};
pub use refusal::Refusal;
pub use values::{Entry, Error, ErrorKind, Group, Options, Quality, Setting, Value};
