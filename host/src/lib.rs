//! dBASE/FoxPro tables, their FPT memo files and IDX indexes, read and written by a proved library, and NDX indexes, read alone: a call answers exactly what
//! the rules say, or refuses by number and changes nothing.
//!
//! ```
//! use gatherloom::{read_number, Refusal};
//!
//! let value = read_number(b"   2.150", 3).unwrap().unwrap();
//! assert_eq!(value.units(), 2150);
//! assert_eq!(value.to_string(), "2.150");
//! assert_eq!(read_number(b"   2,150", 3), Err(Refusal::Comma));
//! assert_eq!(Refusal::Comma.to_string(), "16 (comma in a number)");
//! ```
//!
//! [`Table`] reads a table and its memo file, and lays out and extends a table; [`Index`] makes, audits, searches and extends an index, and gives the
//! [`Volumes`] of a [`Dilution`]; [`NdxIndex`] audits and searches an index of dBASE III. All lie over bytes that the caller holds. [`ffi`] has the C interface
//! itself.
mod dilution;
pub mod ffi;
mod index;
mod ndx;
mod number;
mod refusal;
mod table;
mod writing;

pub use dilution::{Dilution, Volumes};
pub use index::{Index, Lookup};
pub use ndx::NdxIndex;
pub use number::{read_number, write_number, Decimal};
pub use refusal::{Answer, Refusal};
pub use table::{Date, Field, Record, Records, Shape, Table, Value};
pub use writing::{Store, Stores};
