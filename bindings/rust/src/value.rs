//! Parts of documents.

use crate::document::Document;
use crate::error::{check, Error, Result};
use crate::raw::{self, Seen};
use crate::text::Text;
use std::fmt;

/// What a value is; of a number, what carries it.
#[derive(Clone, Copy, Debug, PartialEq, Eq, Hash)]
pub enum Kind {
    Null,
    Bool,
    I64,
    U64,
    I128,
    U128,
    String,
    Array,
    Object,
}

impl Kind {
    pub(crate) fn of(number: u32) -> Kind {
        match number {
            0 => Kind::Null,
            1 => Kind::Bool,
            2 => Kind::I64,
            3 => Kind::U64,
            4 => Kind::I128,
            5 => Kind::U128,
            6 => Kind::String,
            7 => Kind::Array,
            _ => Kind::Object,
        }
    }
}

/// A part of a document, which is borrowed meanwhile. It stays in its thread, as a borrowed document
/// does: neither `Send` nor `Sync`.
#[derive(Clone)]
pub struct Value<'d> {
    document: &'d Document,
    path: String,
    seen: Seen<'d>,
}

/// What a value is found by: a key of an object, or a place in an array.
pub trait Key {
    #[doc(hidden)]
    fn is_for(&self, kind: Kind) -> bool;
    #[doc(hidden)]
    fn push_to(&self, path: &mut String);
}

impl Key for str {
    fn is_for(&self, kind: Kind) -> bool {
        kind == Kind::Object
    }

    fn push_to(&self, path: &mut String) {
        path.push('/');
        for letter in self.chars() {
            match letter {
                '~' => path.push_str("~0"),
                '/' => path.push_str("~1"),
                letter => path.push(letter),
            }
        }
    }
}

impl Key for String {
    fn is_for(&self, kind: Kind) -> bool {
        self.as_str().is_for(kind)
    }

    fn push_to(&self, path: &mut String) {
        self.as_str().push_to(path);
    }
}

impl Key for usize {
    fn is_for(&self, kind: Kind) -> bool {
        kind == Kind::Array
    }

    fn push_to(&self, path: &mut String) {
        path.push('/');
        path.push_str(&self.to_string());
    }
}

impl<K: Key + ?Sized> Key for &K {
    fn is_for(&self, kind: Kind) -> bool {
        (**self).is_for(kind)
    }

    fn push_to(&self, path: &mut String) {
        (**self).push_to(path);
    }
}

fn below(path: &str, key: impl Key) -> String {
    let mut path = path.to_owned();
    key.push_to(&mut path);
    path
}

impl<'d> Value<'d> {
    pub(crate) fn new(document: &'d Document, path: String, seen: Seen<'d>) -> Value<'d> {
        Value {
            document,
            path,
            seen,
        }
    }

    /// The pointer of this part.
    pub fn path(&self) -> &str {
        &self.path
    }

    /// What it is; of a number, what carries it.
    pub fn kind(&self) -> Kind {
        Kind::of(self.seen.kind)
    }

    /// Whether it is a null.
    pub fn is_null(&self) -> bool {
        self.kind() == Kind::Null
    }

    /// Whether it is a truth value.
    pub fn is_bool(&self) -> bool {
        self.kind() == Kind::Bool
    }

    /// Whether it is a text.
    pub fn is_string(&self) -> bool {
        self.kind() == Kind::String
    }

    /// Whether it is an array.
    pub fn is_array(&self) -> bool {
        self.kind() == Kind::Array
    }

    /// Whether it is an object.
    pub fn is_object(&self) -> bool {
        self.kind() == Kind::Object
    }

    /// The truth value, where it is one.
    pub fn as_bool(&self) -> Option<bool> {
        (self.kind() == Kind::Bool).then_some(self.seen.is_true)
    }

    /// The number, where it is from -2^63 to 2^63-1.
    pub fn as_i64(&self) -> Option<i64> {
        self.seen.signed
    }

    /// The number, where it is from 0 to 2^64-1.
    pub fn as_u64(&self) -> Option<u64> {
        self.seen.unsigned
    }

    /// The number, where it is from -2^127 to 2^127-1.
    pub fn as_i128(&self) -> Option<i128> {
        self.seen.as_i128()
    }

    /// The number, where it is from 0 to 2^128-1.
    pub fn as_u128(&self) -> Option<u128> {
        self.seen.as_u128()
    }

    /// The text, where it lies in the document.
    pub fn as_str(&self) -> Option<&'d str> {
        (self.kind() == Kind::String).then_some(self.seen.text)
    }

    /// How many items or members there are; 0 of anything else, also of a text, whose length `as_str`
    /// has.
    pub fn len(&self) -> usize {
        self.seen.len
    }

    /// Whether it has no item and no member; true also of each text and number.
    pub fn is_empty(&self) -> bool {
        self.len() == 0
    }

    /// The member of a key, or the item at a place; None where there is none, or memory is refused.
    pub fn get(&self, key: impl Key) -> Option<Value<'d>> {
        if !key.is_for(self.kind()) {
            return None;
        }
        self.document.pointer(&below(&self.path, key))
    }

    /// The items of an array in order; none of anything else. All are read by one call. Panics where
    /// memory is refused.
    pub fn items(&self) -> impl Iterator<Item = Value<'d>> {
        let (document, path) = (self.document, self.path.clone());
        let items = match self.is_array() {
            true => document.raw().items(&path, self.len()),
            false => Ok(Vec::new()),
        };
        let items = items.expect("out of memory");
        let parts = items.into_iter().enumerate();
        parts.map(move |(place, seen)| Value::new(document, below(&path, place), seen))
    }

    /// The members of an object in order; none of anything else. All are read by one call. Panics where
    /// memory is refused.
    pub fn members(&self) -> impl Iterator<Item = (&'d str, Value<'d>)> {
        let (document, path) = (self.document, self.path.clone());
        let members = match self.is_object() {
            true => document.raw().members(&path, self.len()),
            false => Ok(Vec::new()),
        };
        let members = members.expect("out of memory");
        let parts = members.into_iter();
        parts.map(move |(key, seen)| (key, Value::new(document, below(&path, key), seen)))
    }

    /// A document of its own.
    pub fn to_document(&self) -> Result<Document> {
        let mut copy = Document::empty();
        check(self.document.raw().clone_at(&self.path, copy.raw_mut()))?;
        Ok(copy)
    }

    fn print(&self, is_pretty: bool) -> Result<Text> {
        let mut text = raw::Text::empty();
        check(
            self.document
                .raw()
                .print_at(&self.path, &mut text, is_pretty),
        )?;
        Text::of(text)
    }

    /// The compact text.
    pub fn encode(&self) -> Result<Text> {
        self.print(false)
    }

    /// The text with two spaces a level.
    pub fn encode_pp(&self) -> Result<Text> {
        self.print(true)
    }
}

/// Compact, or with two spaces a level where `{:#}` asks for it. Where memory is refused it is a
/// `fmt::Error`, at which `to_string` panics.
impl fmt::Display for Value<'_> {
    fn fmt(&self, f: &mut fmt::Formatter<'_>) -> fmt::Result {
        f.write_str(&self.print(f.alternate()).map_err(|_: Error| fmt::Error)?)
    }
}

impl fmt::Debug for Value<'_> {
    fn fmt(&self, f: &mut fmt::Formatter<'_>) -> fmt::Result {
        fmt::Display::fmt(self, f)
    }
}

impl PartialEq<str> for Value<'_> {
    fn eq(&self, other: &str) -> bool {
        self.as_str() == Some(other)
    }
}

impl PartialEq<&str> for Value<'_> {
    fn eq(&self, other: &&str) -> bool {
        self.as_str() == Some(*other)
    }
}

impl PartialEq<String> for Value<'_> {
    fn eq(&self, other: &String) -> bool {
        self.as_str() == Some(other)
    }
}

impl PartialEq<i128> for Value<'_> {
    fn eq(&self, other: &i128) -> bool {
        self.as_i128() == Some(*other)
    }
}

impl PartialEq<u128> for Value<'_> {
    fn eq(&self, other: &u128) -> bool {
        self.as_u128() == Some(*other)
    }
}

impl PartialEq<bool> for Value<'_> {
    fn eq(&self, other: &bool) -> bool {
        self.as_bool() == Some(*other)
    }
}

macro_rules! compares_numbers {
    ($($number:ty)*) => {$(
        impl PartialEq<$number> for Value<'_> {
            fn eq(&self, other: &$number) -> bool {
                self.as_i128() == i128::try_from(*other).ok()
            }
        }
    )*};
}
compares_numbers!(i8 i16 i32 i64 isize u8 u16 u32 u64 usize);
