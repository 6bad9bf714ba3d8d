//! Documents.

use crate::convert::IntoDocument;
use crate::error::{check, check_patch, checked, found, Error, Result};
use crate::raw;
use crate::reading::{Buffers, Keep};
use crate::text::Text;
use crate::value::{Key, Kind, Value};
use std::fmt;
use std::str::FromStr;

/// A document that owns its texts. It may go to another thread, and is used by one at a time.
pub struct Document(raw::Doc);

/// A value that was not put into a document, and why.
#[derive(Debug)]
pub struct Refused {
    /// Why it was not put there.
    pub error: Error,
    /// The value as it was given.
    pub value: Document,
}

impl From<Refused> for Error {
    fn from(refused: Refused) -> Error {
        refused.error
    }
}

impl fmt::Display for Refused {
    fn fmt(&self, f: &mut fmt::Formatter<'_>) -> fmt::Result {
        self.error.fmt(f)
    }
}

impl std::error::Error for Refused {}

impl Document {
    pub(crate) fn empty() -> Document {
        Document(raw::Doc::empty())
    }

    pub(crate) fn raw(&self) -> &raw::Doc {
        &self.0
    }

    pub(crate) fn raw_mut(&mut self) -> &mut raw::Doc {
        &mut self.0
    }

    /// Reads one text, of a copy of the bytes; of several members with one key the first stays. Refused
    /// as [`Error::InvalidUtf8`], [`Error::Syntax`], [`Error::LoneSurrogate`], [`Error::Float`],
    /// [`Error::NumberTooLarge`], [`Error::TooDeep`] or [`Error::OutOfMemory`].
    pub fn parse(text: impl AsRef<[u8]>) -> Result<Document> {
        Document::parse_in_place(&mut text.as_ref().to_vec(), Keep::First)
    }

    /// Reads one text. The bytes are written over, also where it is refused, as [`Document::parse`] is.
    pub fn parse_in_place(bytes: &mut [u8], keep: Keep) -> Result<Document> {
        let mut document = Document::empty();
        check(document.0.read(bytes, keep == Keep::Last))?;
        Ok(document)
    }

    /// Reads one text of many, with room at once for what the largest before had. The bytes are
    /// written over. Of several members with one key the first stays. The buffers can be used again
    /// whatever is answered.
    ///
    /// ```
    /// # use paizkorde::{Buffers, Document};
    /// let mut buffers = Buffers::default();
    /// for line in ["[1]", "[1,2]"] {
    ///     let document = Document::parse_with_buffers(&mut line.to_owned().into_bytes(), &mut buffers)?;
    ///     assert_eq!(document.to_string(), line);
    /// }
    /// # Ok::<(), paizkorde::Error>(())
    /// ```
    pub fn parse_with_buffers(bytes: &mut [u8], buffers: &mut Buffers) -> Result<Document> {
        let mut document = Document::empty();
        check(document.0.read_with_buffers(bytes, &mut buffers.0))?;
        Ok(document)
    }

    /// An array without items.
    pub fn array() -> Result<Document> {
        let mut document = Document::empty();
        check(document.0.set_array())?;
        Ok(document)
    }

    /// An object without members.
    pub fn object() -> Result<Document> {
        let mut document = Document::empty();
        check(document.0.set_object())?;
        Ok(document)
    }

    /// What stands at the pointer (RFC 6901); None where nothing does, the text is no pointer, or memory
    /// is refused.
    pub fn pointer(&self, path: &str) -> Option<Value<'_>> {
        self.try_pointer(path).ok().flatten()
    }

    /// The same; a text that is no pointer, and want of memory, are refused.
    pub fn try_pointer(&self, path: &str) -> Result<Option<Value<'_>>> {
        // The text may lie in this document.
        let path = path.to_owned();
        let seen = found(self.0.find(&path))?;
        Ok(seen.map(|seen| Value::new(self, path, seen)))
    }

    /// The whole document as a value. It asks for no memory.
    pub fn root(&self) -> Value<'_> {
        self.pointer("").expect("a document has a root")
    }

    /// The member of a key, or the item at a place; None where there is none, or memory is refused.
    pub fn get(&self, key: impl Key) -> Option<Value<'_>> {
        self.root().get(key)
    }

    /// What the document is; of a number, what carries it.
    pub fn kind(&self) -> Kind {
        self.root().kind()
    }

    fn old(code: raw::Code, old: Document) -> Result<Option<Document>> {
        check(code)?;
        Ok(old.0.is_open().then_some(old))
    }

    fn given(
        code: raw::Code,
        value: Document,
        old: Document,
    ) -> std::result::Result<Option<Document>, Refused> {
        Document::old(code, old).map_err(|error| Refused { error, value })
    }

    /// Sets the value of the key of the object at the pointer, and answers what was there, None where
    /// nothing was. A key that is there keeps its place; a new one goes last.
    pub fn insert(
        &mut self,
        path: &str,
        key: &str,
        value: impl IntoDocument,
    ) -> Result<Option<Document>> {
        Ok(self.try_insert(path, key, value.into_document()?)?)
    }

    /// The same; a refused value comes back.
    pub fn try_insert(
        &mut self,
        path: &str,
        key: &str,
        mut value: Document,
    ) -> std::result::Result<Option<Document>, Refused> {
        let mut old = Document::empty();
        let code = self.0.insert(path, key, &mut value.0, &mut old.0);
        Document::given(code, value, old)
    }

    /// Puts the value behind the items of the array at the pointer.
    pub fn push(&mut self, path: &str, value: impl IntoDocument) -> Result<()> {
        Ok(self.try_push(path, value.into_document()?)?)
    }

    /// The same; a refused value comes back.
    pub fn try_push(
        &mut self,
        path: &str,
        mut value: Document,
    ) -> std::result::Result<(), Refused> {
        let mut old = Document::empty();
        let code = self.0.push(path, &mut value.0, &mut old.0);
        Document::given(code, value, old).map(|_| ())
    }

    /// Puts the value in the place of what stands at the pointer, and answers that, and so never None;
    /// [`Error::Missing`] where nothing stands there.
    pub fn put(&mut self, path: &str, value: impl IntoDocument) -> Result<Option<Document>> {
        Ok(self.try_put(path, value.into_document()?)?)
    }

    /// The same; a refused value comes back.
    pub fn try_put(
        &mut self,
        path: &str,
        mut value: Document,
    ) -> std::result::Result<Option<Document>, Refused> {
        let mut old = Document::empty();
        let code = self.0.put(path, &mut value.0, &mut old.0);
        Document::given(code, value, old)
    }

    /// Sets what the pointer leads to, and answers what stood there, or None; the objects that are
    /// missing on the way are made. Where a token finds nothing in an array, or meets a scalar, it is refused as
    /// [`Error::NotAnObject`].
    pub fn set(&mut self, path: &str, value: impl IntoDocument) -> Result<Option<Document>> {
        Ok(self.try_set(path, value.into_document()?)?)
    }

    /// The same; a refused value comes back.
    pub fn try_set(
        &mut self,
        path: &str,
        mut value: Document,
    ) -> std::result::Result<Option<Document>, Refused> {
        let mut old = Document::empty();
        let code = self.0.set(path, &mut value.0, &mut old.0);
        Document::given(code, value, old)
    }

    /// Takes the member of the key out of the object at the pointer, and answers its value; None where
    /// there is no such key.
    pub fn remove(&mut self, path: &str, key: &str) -> Result<Option<Document>> {
        let mut old = Document::empty();
        let code = self.0.remove(path, key, &mut old.0);
        Document::old(code, old)
    }

    /// Takes the last item of the array at the pointer, and answers it; None where there is none.
    pub fn pop(&mut self, path: &str) -> Result<Option<Document>> {
        let mut old = Document::empty();
        let code = self.0.pop(path, &mut old.0);
        Document::old(code, old)
    }

    /// Does the operations that a patch lists (RFC 6902), all of them or none. Refused as
    /// [`Error::TooDeep`] where the patch has more than 1,024 levels.
    ///
    /// ```
    /// # use paizkorde::Document;
    /// let mut doc = Document::parse(r#"{"a":[1,2]}"#)?;
    /// let patch = Document::parse(r#"[{"op":"move","from":"/a/0","path":"/b"}]"#)?;
    /// doc.patch(&patch)?;
    /// assert_eq!(doc.to_string(), r#"{"a":[2],"b":1}"#);
    /// # Ok::<(), paizkorde::Error>(())
    /// ```
    pub fn patch(&mut self, patch: &Document) -> Result<()> {
        check_patch(self.0.patch(&patch.0))
    }

    /// The patch by which this document becomes the same as another: an array of operations (RFC
    /// 6902), without any where they are the same. Refused as [`Error::TooDeep`] where both have more
    /// than 1,024 levels.
    pub fn diff(&self, to: &Document) -> Result<Document> {
        if std::ptr::eq(self, to) {
            return Document::array();
        }
        let mut patch = Document::empty();
        check(self.0.diff(&to.0, &mut patch.0))?;
        Ok(patch)
    }

    /// Merges a patch (RFC 7396): its members go over those of the document, a null takes one out. A
    /// patch that is no object replaces the whole. Refused as [`Error::TooDeep`] where the patch has
    /// more than 256 levels.
    ///
    /// ```
    /// # use paizkorde::Document;
    /// let mut settings = Document::parse(r#"{"debug":true,"log":{"level":1,"file":"a"}}"#)?;
    /// settings.merge(&Document::parse(r#"{"debug":null,"log":{"level":2}}"#)?)?;
    /// assert_eq!(settings.to_string(), r#"{"log":{"level":2,"file":"a"}}"#);
    /// # Ok::<(), paizkorde::Error>(())
    /// ```
    pub fn merge(&mut self, patch: &Document) -> Result<()> {
        check(self.0.merge(&patch.0))
    }

    /// The merge patch by which this document becomes the same as another; None where none leads there,
    /// since it has a null in an object where this one has not. Refused as [`Error::TooDeep`] where `to`
    /// has more than 256 levels.
    pub fn merge_diff(&self, to: &Document) -> Result<Option<Document>> {
        if std::ptr::eq(self, to) {
            return self.merge_diff(&to.try_clone()?);
        }
        let mut patch = Document::empty();
        merge_patch(self.0.merge_diff(&to.0, &mut patch.0), patch)
    }

    /// Answers command lines in turn, as `["insert","/a","k",1]`: the replies, each with a line feed behind
    /// it; that of `encode_pp` has several lines. Refused, some of the commands may be done.
    pub fn session(&mut self, lines: &str) -> Result<Text> {
        let (mut bytes, mut text) = (lines.as_bytes().to_vec(), raw::Text::empty());
        check(self.0.lines(&mut bytes, &mut text))?;
        Text::of(text)
    }

    fn print(&self, is_pretty: bool) -> Result<Text> {
        let mut text = raw::Text::empty();
        check(self.0.print(&mut text, is_pretty))?;
        Text::of(text)
    }

    /// The compact text.
    pub fn encode(&self) -> Result<Text> {
        self.print(false)
    }

    /// The text with two spaces a level.
    pub fn encode_pp(&self) -> Result<Text> {
        self.print(true)
    }

    /// The text in the canonical form (RFC 8785), but that numbers past 2^53 have all their digits: equal
    /// for documents that are the same, and for those alone.
    pub fn encode_canonical(&self) -> Result<Text> {
        let mut text = raw::Text::empty();
        check(self.0.print_canonical(&mut text))?;
        Text::of(text)
    }

    /// A copy.
    pub fn try_clone(&self) -> Result<Document> {
        let mut copy = Document::empty();
        check(self.0.clone_to(&mut copy.0))?;
        Ok(copy)
    }

    /// Whether both are the same: members in any order, numbers by their value. Refused as
    /// [`Error::TooDeep`] only where both have more than 1,024 levels.
    pub fn same(&self, other: &Document) -> Result<bool> {
        checked(self.0.same(&other.0))
    }
}

/// The merge patch, where there is one.
fn merge_patch(code: raw::Code, patch: Document) -> Result<Option<Document>> {
    const NO_MERGE_PATCH: raw::Code = 10;
    if code == NO_MERGE_PATCH {
        return Ok(None);
    }
    check(code)?;
    Ok(Some(patch))
}

impl Clone for Document {
    /// Panics where memory is refused, as the clones of std's types do; see [`Document::try_clone`].
    fn clone(&self) -> Document {
        self.try_clone().expect("out of memory")
    }
}

impl FromStr for Document {
    type Err = Error;

    fn from_str(text: &str) -> Result<Document> {
        Document::parse(text)
    }
}

/// Members in any order, numbers by their value.
impl PartialEq for Document {
    /// Panics where memory is refused, as std's clones do; see [`Document::same`].
    fn eq(&self, other: &Document) -> bool {
        let is_same = self.same(other).or_else(|error| match error {
            Error::TooDeep => Ok(*self.encode_canonical()? == *other.encode_canonical()?),
            error => Err(error),
        });
        is_same.expect("out of memory")
    }
}

impl Eq for Document {}

/// Compact, or with two spaces a level where `{:#}` asks for it. Where memory is refused it is a
/// `fmt::Error`, at which `to_string` panics.
impl fmt::Display for Document {
    fn fmt(&self, f: &mut fmt::Formatter<'_>) -> fmt::Result {
        f.write_str(&self.print(f.alternate()).map_err(|_| fmt::Error)?)
    }
}

impl fmt::Debug for Document {
    fn fmt(&self, f: &mut fmt::Formatter<'_>) -> fmt::Result {
        fmt::Display::fmt(self, f)
    }
}
