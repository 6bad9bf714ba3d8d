//! What can be put into a document.

use crate::document::Document;
use crate::error::{check, Result};
use crate::value::Value;

/// A value that a document can be made of.
pub trait IntoDocument {
    /// A document of the value. Refused for want of memory.
    fn into_document(self) -> Result<Document>;
}

impl IntoDocument for Document {
    fn into_document(self) -> Result<Document> {
        Ok(self)
    }
}

impl IntoDocument for Value<'_> {
    fn into_document(self) -> Result<Document> {
        self.to_document()
    }
}

/// A null.
impl IntoDocument for () {
    fn into_document(self) -> Result<Document> {
        let mut document = Document::empty();
        check(document.raw_mut().set_null())?;
        Ok(document)
    }
}

impl IntoDocument for bool {
    fn into_document(self) -> Result<Document> {
        let mut document = Document::empty();
        check(document.raw_mut().set_bool(self))?;
        Ok(document)
    }
}

impl IntoDocument for &str {
    fn into_document(self) -> Result<Document> {
        let mut document = Document::empty();
        check(document.raw_mut().set_text(self))?;
        Ok(document)
    }
}

impl IntoDocument for &String {
    fn into_document(self) -> Result<Document> {
        self.as_str().into_document()
    }
}

impl IntoDocument for String {
    fn into_document(self) -> Result<Document> {
        self.as_str().into_document()
    }
}

/// A null for None.
impl<T: IntoDocument> IntoDocument for Option<T> {
    fn into_document(self) -> Result<Document> {
        match self {
            Some(value) => value.into_document(),
            None => ().into_document(),
        }
    }
}

/// An array.
impl<T: IntoDocument> IntoDocument for Vec<T> {
    fn into_document(self) -> Result<Document> {
        let mut document = Document::array()?;
        for item in self {
            document.push("", item)?;
        }
        Ok(document)
    }
}

macro_rules! of_numbers {
    ($set:ident as $wide:ty: $($number:ty)*) => {$(
        impl IntoDocument for $number {
            fn into_document(self) -> Result<Document> {
                let mut document = Document::empty();
                check(document.raw_mut().$set(self as $wide))?;
                Ok(document)
            }
        }
    )*};
}
of_numbers!(set_signed as i64: i8 i16 i32 i64 isize);
of_numbers!(set_unsigned as u64: u8 u16 u32 u64 usize);

fn of_words(words: u128, is_signed: bool) -> Result<Document> {
    let mut document = Document::empty();
    let (low, high) = (words as u64, (words >> 64) as u64);
    check(document.raw_mut().set_wide(low, high, is_signed))?;
    Ok(document)
}

impl IntoDocument for i128 {
    fn into_document(self) -> Result<Document> {
        of_words(self as u128, true)
    }
}

impl IntoDocument for u128 {
    fn into_document(self) -> Result<Document> {
        of_words(self, false)
    }
}
