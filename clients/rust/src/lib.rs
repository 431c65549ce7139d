//! Vosdrieng: an HTTP cache in a program.
//!
//! The cache decides and stores; the program brings the bytes. A program hands in what happens, one
//! [`Event`] a call, and carries out the [`Act`]s that it is answered. The cache opens no socket and no
//! file, reads no clock and starts no thread. `include/vosdrieng.h` documents each call, and
//! `docs/RULES.md` says which acts are due.
//!
//! ```
//! use vosdrieng::{Act, Cache, Event, Limits, Load, Request};
//!
//! # fn main() -> Result<(), vosdrieng::Error> {
//! let mut cache = Cache::new(Limits { max_entry: 1 << 24, max_total: 1 << 28 })?;
//! let request = Request { method: b"GET", load: Load::Normal, target: b"http://a.test/film", fields: b"" };
//! cache.step(1000, &Event::Start { consumer: 1, request })?;
//! for act in cache.step(1000, &Event::Poll { consumer: 1, want: 65536 })? {
//!     if let Act::Open { target, .. } = act {
//!         assert_eq!(target, b"http://a.test/film");
//!     }
//! }
//! # Ok(())
//! # }
//! ```
#![no_std]
#![warn(missing_docs)]

extern crate alloc;

mod act;
mod cache;
mod error;
mod event;
mod fields;
mod raw;

pub use act::{Act, Acts, Cause, Denial, Loss, Need, Wait, Why};
pub use cache::{Cache, Limits};
pub use error::{Error, LineError};
pub use event::{Event, Load, Request};
pub use fields::Fields;
