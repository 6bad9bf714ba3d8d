//! Calls on texts of which no document is kept.

use crate::error::{check, found, Result};
use crate::raw::{self, Seen};
use crate::reading::Keep;
use crate::text::Text;
use crate::value::Kind;
use std::fmt;

/// What stands at a pointer in a text; a text that it is lies in the bytes that were read.
#[derive(Clone, Copy)]
pub struct Peeked<'i>(Seen<'i>);

impl<'i> Peeked<'i> {
    /// What it is; of a number, what carries it.
    pub fn kind(&self) -> Kind {
        Kind::of(self.0.kind)
    }

    /// The truth value, where it is one.
    pub fn as_bool(&self) -> Option<bool> {
        (self.kind() == Kind::Bool).then_some(self.0.is_true)
    }

    /// The number, where it is from -2^63 to 2^63-1.
    pub fn as_i64(&self) -> Option<i64> {
        self.0.signed
    }

    /// The number, where it is from 0 to 2^64-1.
    pub fn as_u64(&self) -> Option<u64> {
        self.0.unsigned
    }

    /// The number, where it is from -2^127 to 2^127-1.
    pub fn as_i128(&self) -> Option<i128> {
        self.0.as_i128()
    }

    /// The number, where it is from 0 to 2^128-1.
    pub fn as_u128(&self) -> Option<u128> {
        self.0.as_u128()
    }

    /// The text, where it is one, in the bytes that were read.
    pub fn as_str(&self) -> Option<&'i str> {
        (self.kind() == Kind::String).then_some(self.0.text)
    }
}

impl fmt::Debug for Peeked<'_> {
    fn fmt(&self, f: &mut fmt::Formatter<'_>) -> fmt::Result {
        let mut told = f.debug_struct("Peeked");
        told.field("kind", &self.kind());
        if let Some(text) = self.as_str() {
            told.field("text", &text);
        }
        told.finish_non_exhaustive()
    }
}

/// Says what stands at the pointer in the text, and builds no document; None where nothing does. The
/// bytes are written over. Refused as [`Document::parse`](crate::Document::parse) is, and as
/// [`Error::BadPointer`](crate::Error::BadPointer).
pub fn peek<'i>(bytes: &'i mut [u8], path: &str, keep: Keep) -> Result<Option<Peeked<'i>>> {
    let seen = found(raw::peek(bytes, keep == Keep::Last, path))?;
    Ok(seen.map(Peeked))
}

/// Which type holds a session's document.
#[derive(Clone, Copy, Debug, PartialEq, Eq, Hash)]
pub enum Form {
    /// Its texts are its own.
    Owned,
    /// Its texts lie in the input where they can.
    Borrowed,
    /// A tape until the first write.
    Lazy,
}

/// Reads the document of the input, and answers the command lines behind its first line `---` in
/// turn: the replies, each with a line feed behind it. The input is written over. Refused as
/// [`Document::parse`](crate::Document::parse) is.
pub fn session(input: &mut [u8], form: Form, keep: Keep) -> Result<Text> {
    let form = match form {
        Form::Owned => 0,
        Form::Borrowed => 1,
        Form::Lazy => 2,
    };
    let mut text = raw::Text::empty();
    check(raw::session(input, form, keep == Keep::Last, &mut text))?;
    Text::of(text)
}
