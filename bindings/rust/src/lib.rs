//! Reads HCL expressions, and checks readings. What [`read`] and [`check`] answer is proved of the code behind them, for every source, room and table.
//!
//! A source is bytes, at most 65,535 of them. It holds one expression, from its first byte to its last.
//!
//! ```
//! let reading = vealtikum::parse(b"8 - 3 - 2")?;
//! let root = reading.root();
//! assert_eq!(root.kind(), vealtikum::Kind::Subtract);
//! // it groups from the left
//! let left = root.children().next().unwrap();
//! assert_eq!(left.source(), b"8 - 3");
//! # Ok::<(), vealtikum::Error>(())
//! ```
//!
//! A refusal says where, and what the matter is:
//!
//! ```
//! let error = vealtikum::parse(b"{\n  a = 1\n  a = 2\n}").unwrap_err();
//! assert_eq!(error.refusal(), vealtikum::Refusal::Duplicate { place: 12 });
//! assert_eq!(
//!     error.to_string(),
//!     " --> HCL parse error in line 3, column 3
//!   |
//! 3 |   a = 2
//!   |   ^---
//!   |
//!   = the object has this key already"
//! );
//! ```
//!
//! [`parse`] allocates the room that it needs. [`read`] is lent room and allocates nothing. [`Table::from_parts`] takes back a reading that was kept.
#![warn(missing_docs)]

mod error;
mod ffi;
mod kind;
mod reading;
mod refusal;
mod table;

pub use error::{Error, Location};
pub use kind::Kind;
pub use reading::{check, parse, read, Answer, Reading};
pub use refusal::Refusal;
pub use table::{Children, Node, Table, Walk};

/// The longest source that is read, in bytes. No reading has more nodes, or more text bytes, than its source has bytes.
pub const LONGEST: usize = 65_535;

/// How many numbers a record has: kind, flag, start, end, count, text start, text length.
pub const WIDTH: usize = 7;
