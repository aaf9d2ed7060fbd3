//! The leader election of carillon cabinets, for Rust.
//!
//! Up to 16 cabinets, or up to 4 on a practice stand, elect a coordinator, and it gives each member
//! the number of a playing table: Garcia-Molina's Invitation Algorithm, as the documents 01 and 02
//! have it, and his Bully Algorithm for small towers ([`bully`]). The machine is written in Rattle
//! and proved; this crate is a safe layer over its static library.
//!
//! ```
//! use nevraspu::{lists, Event, Refusal, Status, Table};
//!
//! // Two cabinets; the first recovers and is its own coordinator, in the group 16.
//! let table = Table::tower(2).step(Event::Recover(1))?;
//! let record = table.record(1).unwrap();
//! assert_eq!((record.status, record.coordinator, record.group), (Status::Normal, 1, 16));
//!
//! // It can't recover again. The refusal has its number in 01, and its ground.
//! let refusal = table.step(Event::Recover(1)).unwrap_err();
//! assert_eq!(refusal, Refusal::WrongStatus);
//! assert_eq!(refusal.number(), 9);
//!
//! // The same from a text, through a list, to the printed table.
//! let list = lists::list_of_text(b"cabinets 2  # two of them\nrecover 1\nrecover 1\n").unwrap();
//! let text = "cabinets 2\nrefused 2 9\n1 3 1 16 1 1 0\n2 0 0 0 0 0 0\nmessages 0\n\
//!             sent 0\ndelivered 0\nlost 0\n";
//! assert_eq!(lists::print(&list), text.as_bytes());
//! # Ok::<(), Refusal>(())
//! ```
//!
//! - [`Table`] has all cabinets and the waiting messages: [`step`](Table::step),
//!   [`recovery`](Table::recovery) and [`turn`](Table::turn).
//! - [`Controller`] is the share of one cabinet: its own record, and messages in bytes.
//! - [`bully`] has the other machine.
//! - [`lists`] has the lists of events in bytes, and all texts.
//! - [`Refusal`] has the grounds, with their numbers in 01 and 02.
//! - [`calls`] has the library's functions themselves, over slices.
//!
//! # What is proved
//!
//! The library: any bytes are answered as its definitions say. What these are and what is proved of
//! them stands in the repository's `README.md`. No rule of 01 or 02 is written in this crate: it
//! writes events and starting tables in their byte forms, asks the library, and reads its bytes. The
//! Rust of this crate is not proved; it is tested. All `unsafe` is in [`calls`].
//!
//! # How to build it
//!
//! It needs the archive `target/staticlib/libnevraspu.a`, for x86-64, which `tools/archive` makes at
//! the root of the repository; `NEVRASPU_LIBRARY` can name another. Nothing else is needed but the
//! standard library:
//!
//! ```text
//! tools/archive && cargo test --release --offline --manifest-path rust/Cargo.toml
//! ```

#![warn(missing_docs)]
#![deny(unsafe_code)]

pub mod bully;
mod bytes;
mod cabinets;
#[allow(unsafe_code)]
pub mod calls;
mod controller;
mod event;
pub mod lists;
mod message;
mod record;
mod refusal;
mod stopped;
mod table;

pub use cabinets::{Cabinets, Pair};
pub use controller::{CableMessage, Controller, Outcome};
pub use event::Event;
pub use lists::ShortLists;
pub use message::{Body, Message};
pub use record::{Activity, Record, Status};
pub use refusal::Refusal;
pub use stopped::{BadText, Stopped};
pub use table::{Counts, Done, Table, Turn};

/// What the number says that a call answered, with enough room in `out`.
fn answered(number: u8) -> Result<(), Refusal> {
    match number {
        0 => Ok(()),
        _ => Err(Refusal::from_number(number).expect("the library answers a refusal's number")),
    }
}
