//! JSON documents (RFC 8259, whole numbers only), from a library whose every call is proved.
//!
//! ```
//! use paizkorde::Document;
//!
//! let mut settings: Document = r#"{"name":"kiosk","ports":[80,443]}"#.parse()?;
//! let port = settings.pointer("/ports/1").and_then(|value| value.as_u64());
//! assert_eq!(port, Some(443));
//! settings.insert("", "debug", true)?;
//! assert_eq!(settings.to_string(), r#"{"name":"kiosk","ports":[80,443],"debug":true}"#);
//! # Ok::<(), paizkorde::Error>(())
//! ```
//!
//! Parts are read by [`Value`]s, which borrow the document:
//!
//! ```
//! # use paizkorde::Document;
//! let users = Document::parse(r#"{"ann":{"age":31},"bob":{"age":27}}"#)?;
//! let mut ages = users.root().members().filter_map(|(name, user)| Some((name, user.get("age")?.as_u64()?)));
//! assert_eq!(ages.next(), Some(("ann", 31)));
//! # Ok::<(), paizkorde::Error>(())
//! ```
//!
//! Edits name places by JSON pointers (RFC 6901):
//!
//! ```
//! # use paizkorde::{Document, Error};
//! let mut doc = Document::parse(r#"{"a":[1]}"#)?;
//! doc.push("/a", 2)?;
//! assert_eq!(doc.to_string(), r#"{"a":[1,2]}"#);
//! assert_eq!(doc.push("/z", 3), Err(Error::NotAnArray));
//! doc.set("/b/c", true)?;
//! assert_eq!(doc.to_string(), r#"{"a":[1,2],"b":{"c":true}}"#);
//! # Ok::<(), paizkorde::Error>(())
//! ```
//!
//! A refused edit, patch or merge leaves the document as it was. A value that `insert`, `push`, `put`
//! or `set` was given is let go then; `try_insert` and its kin hand it back. Where the pointer finds
//! nothing, `insert` and `remove` answer [`Error::NotAnObject`], `push` and `pop`
//! [`Error::NotAnArray`], `put` [`Error::Missing`].
//!
//! Of several members with one key the first stays, or, by [`Keep::Last`], the last. Numbers with a
//! fraction or an exponent are refused ([`Error::Float`]), and so is want of memory
//! ([`Error::OutOfMemory`]). `clone`, `==`, `items`, `members`, `to_string`, `format!` and `println!`
//! panic there; `try_clone`, `same` and `encode` answer. What std's own types ask for aborts, as
//! always: the copy of the bytes in `parse` and `session`, the path of a `Value`, the lists of `items`
//! and `members`.
//!
//! Have 512 KB of stack, and make no call in the child of a fork of a program with threads.
//!
//! A document may go to another thread, and is used by one at a time:
//!
//! ```
//! # use paizkorde::Document;
//! let mut doc = Document::parse("[1]")?;
//! let doc = std::thread::spawn(move || doc.push("", 2).map(|()| doc)).join().unwrap()?;
//! assert_eq!(doc.to_string(), "[1,2]");
//! # Ok::<(), paizkorde::Error>(())
//! ```
//!
//! ```compile_fail
//! # use paizkorde::Document;
//! fn shares<T: Sync>(_: T) {}
//! shares(Document::parse("[1]").unwrap());
//! ```
//!
//! A value does not outlive an edit:
//!
//! ```compile_fail
//! # use paizkorde::Document;
//! let mut doc = Document::parse("[1]").unwrap();
//! let item = doc.get(0);
//! doc.pop("").unwrap();
//! assert!(item.is_some());
//! ```
#![warn(unsafe_op_in_unsafe_fn)]

mod convert;
mod document;
mod error;
mod input;
mod raw;
mod reading;
mod text;
mod value;

pub use convert::IntoDocument;
pub use document::{Document, Refused};
pub use error::{Error, PatchFault, Result};
pub use input::{peek, session, Form, Peeked};
pub use reading::{Buffers, Keep};
pub use text::Text;
pub use value::{Key, Kind, Value};
