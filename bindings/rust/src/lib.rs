//! Reads and writes nachricht messages with the proved library `libnachricht.a`.
//!
//! nachricht is a self-describing binary format. A **bundle** is zero or more fields back to back: values, keys with
//! values, and containers of fields. Keys and symbols stand in a symbol table, so that each is written once and
//! referred to afterwards. The **canonical** encoding is the one with the shortest headers and no name written twice.
//!
//! Reading a bundle gives its items, with references replaced by what they stand for:
//!
//! ```
//! use nachricht::{Bundle, Item, Text};
//!
//! let bytes = [0x62, 0xC1, 0x64, 0x25, 0xC1, 0x6D, 0x23];
//! let bundle = Bundle::read(&bytes)?;
//! let items: Vec<Item> = bundle.items().collect();
//! assert_eq!(items[0], Item::Container(2));
//! assert_eq!(items[1], Item::Key(Text::from("d")));
//! assert_eq!(items[2], Item::Integer(5));
//! assert_eq!(bundle.to_string(), "container 2\n  d: 5\n  m: 3\n");
//! # Ok::<(), nachricht::Error>(())
//! ```
//!
//! A [`Builder`] writes one, always canonically; two are joined with one symbol table for both:
//!
//! ```
//! use nachricht::{joined, Builder};
//!
//! let line = Builder::new().container(2).key("d").integer(5).key("m").integer(3).finish()?;
//! assert_eq!(line, [0x62, 0xC1, 0x64, 0x25, 0xC1, 0x6D, 0x23]);
//! let both = joined(&line, &line)?;
//! assert_eq!(both[line.len()..], [0x62, 0xE0, 0x25, 0xE1, 0x23]);
//! # Ok::<(), nachricht::Error>(())
//! ```
//!
//! A bundle goes over a wire in an envelope, which tells its length: [`open()`], [`close`], [`enveloped`].
//!
//! All bytes and all rows get an answer: no function panics on an input or asks for anything beforehand. An [`Error`]
//! says what is wrong and where, and has changed nothing in the buffers that were lent. Functions that are lent a
//! buffer do not allocate; those that answer a `Vec` or a [`Bundle`] do.
#![deny(missing_docs)]
#![deny(unsafe_code)]

mod answer;
mod builder;
mod bundle;
mod display;
mod envelope;
mod error;
mod item;
mod joining;
pub mod limits;
mod place;
mod reading;
mod row;
mod text;
mod writing;

pub use builder::Builder;
pub use bundle::{Bundle, Items};
pub use envelope::{close, enveloped, open};
pub use error::Error;
pub use item::Item;
pub use joining::{join, joined};
pub use place::{Place, Side};
pub use reading::{check, read_into, Counts, Mode};
pub use row::{Kind, Row};
pub use text::Text;
pub use writing::{canonicalize, to_canonical, write, written};
