//! The calls of the library, for safe code. All `unsafe` of this crate stands here and below.

#[cfg(feature = "heap")]
mod heap;
mod sys;

use std::cell::UnsafeCell;
use std::ptr;

use sys::{Found, Member};

/// A status: 0 is done.
pub type Code = u32;

/// What a call writes over.
const NOTHING: Found = Found {
    kind: 0,
    is_true: false,
    is_signed: false,
    is_unsigned: false,
    signed: 0,
    unsigned: 0,
    low: 0,
    high: 0,
    len: 0,
    text: ptr::null(),
};

const NO_MEMBER: Member = Member {
    key: ptr::null(),
    key_len: 0,
    value: NOTHING,
};

/// What stands at a pointer, with the text that it is.
#[derive(Clone, Copy)]
pub struct Seen<'t> {
    pub kind: u32,
    pub is_true: bool,
    pub signed: Option<i64>,
    pub unsigned: Option<u64>,
    /// The number in two's complement of 128 bits.
    pub words: u128,
    /// How many items or members.
    pub len: usize,
    pub text: &'t str,
}

impl<'t> Seen<'t> {
    const STRING: u32 = 6;
    const U128: u32 = 5;

    fn is_number(&self) -> bool {
        (2..=Seen::U128).contains(&self.kind)
    }

    pub fn as_i128(&self) -> Option<i128> {
        if self.kind == Seen::U128 {
            return i128::try_from(self.words).ok();
        }
        self.is_number().then_some(self.words as i128)
    }

    pub fn as_u128(&self) -> Option<u128> {
        if self.kind == Seen::U128 {
            return Some(self.words);
        }
        u128::try_from(self.as_i128()?).ok()
    }

    /// # Safety
    /// A call wrote `found`, and what it led to then stays there during `'t`.
    unsafe fn of(found: &Found) -> Seen<'t> {
        let is_text = found.kind == Seen::STRING;
        Seen {
            kind: found.kind,
            is_true: found.is_true,
            signed: found.is_signed.then_some(found.signed),
            unsigned: found.is_unsigned.then_some(found.unsigned),
            words: u128::from(found.high) << 64 | u128::from(found.low),
            len: if is_text { 0 } else { found.len },
            text: if is_text {
                // SAFETY: as the caller says.
                unsafe { text_at(found.text, found.len) }
            } else {
                ""
            },
        }
    }
}

/// # Safety
/// The library gave place and length, so the bytes are UTF-8, and they stay there during `'t`.
unsafe fn text_at<'t>(at: *const u8, len: usize) -> &'t str {
    if len == 0 {
        return "";
    }
    // SAFETY: as the caller says.
    unsafe { std::str::from_utf8_unchecked(std::slice::from_raw_parts(at, len)) }
}

/// For how many nodes of a text the next reading makes room at once.
pub struct Buffers(sys::Buffers);

impl Buffers {
    pub const fn new() -> Buffers {
        Buffers(sys::Buffers { nodes: 0 })
    }
}

/// A handle of a document, or of none.
///
/// The library writes to the handle also where it reads, so it stands in a cell: a `Doc` is not
/// `Sync`, and each call is over before the next one begins.
pub struct Doc(UnsafeCell<sys::Doc>);

// SAFETY: what a handle owns may go to another thread; `Kept` of crates/sj_c has the proof.
unsafe impl Send for Doc {}

impl Doc {
    pub fn empty() -> Doc {
        Doc(UnsafeCell::new(sys::Doc {
            at: ptr::null_mut(),
            is_open: false,
        }))
    }

    fn raw(&self) -> *mut sys::Doc {
        self.0.get()
    }

    pub fn is_open(&self) -> bool {
        // SAFETY: no call is under way, since `Doc` is not `Sync`.
        unsafe { (*self.raw()).is_open }
    }

    pub fn read(&mut self, bytes: &mut [u8], last: bool) -> Code {
        // SAFETY: the handle and the bytes are lent to the call alone.
        unsafe { sys::sj_read(self.raw(), bytes.as_mut_ptr(), bytes.len(), last) }
    }

    pub fn read_with_buffers(&mut self, bytes: &mut [u8], buffers: &mut Buffers) -> Code {
        let (at, len) = (bytes.as_mut_ptr(), bytes.len());
        // SAFETY: the handle, the bytes and the buffers are lent to the call alone.
        unsafe { sys::sj_read_with_buffers(self.raw(), at, len, &mut buffers.0) }
    }

    pub fn set_null(&mut self) -> Code {
        // SAFETY: the handle is lent to the call alone.
        unsafe { sys::sj_of_null(self.raw()) }
    }

    pub fn set_bool(&mut self, truth: bool) -> Code {
        // SAFETY: as above.
        unsafe { sys::sj_of_bool(self.raw(), truth) }
    }

    pub fn set_signed(&mut self, number: i64) -> Code {
        // SAFETY: as above.
        unsafe { sys::sj_of_signed(self.raw(), number) }
    }

    pub fn set_unsigned(&mut self, number: u64) -> Code {
        // SAFETY: as above.
        unsafe { sys::sj_of_unsigned(self.raw(), number) }
    }

    pub fn set_wide(&mut self, low: u64, high: u64, is_signed: bool) -> Code {
        // SAFETY: as above.
        unsafe { sys::sj_of_wide(self.raw(), low, high, is_signed) }
    }

    pub fn set_text(&mut self, text: &str) -> Code {
        // SAFETY: as above; the text is only read.
        unsafe { sys::sj_of_text(self.raw(), text.as_ptr(), text.len()) }
    }

    pub fn set_array(&mut self) -> Code {
        // SAFETY: as above.
        unsafe { sys::sj_of_array(self.raw()) }
    }

    pub fn set_object(&mut self) -> Code {
        // SAFETY: as above.
        unsafe { sys::sj_of_object(self.raw()) }
    }

    pub fn clone_to(&self, copy: &mut Doc) -> Code {
        // SAFETY: both handles are different, and no other call is under way.
        unsafe { sys::sj_clone(self.raw(), copy.raw()) }
    }

    pub fn clone_at(&self, path: &str, copy: &mut Doc) -> Code {
        // SAFETY: as above; the path is only read.
        unsafe { sys::sj_clone_at(self.raw(), path.as_ptr(), path.len(), copy.raw()) }
    }

    /// Whether both are the same; a handle is the same as itself.
    pub fn same(&self, other: &Doc) -> Result<bool, Code> {
        if ptr::eq(self, other) {
            return Ok(true);
        }
        let mut same = false;
        // SAFETY: both handles are different, and no other call is under way.
        match unsafe { sys::sj_same(self.raw(), other.raw(), &mut same) } {
            0 => Ok(same),
            code => Err(code),
        }
    }

    pub fn print(&self, text: &mut Text, is_pretty: bool) -> Code {
        // SAFETY: as above.
        unsafe { sys::sj_print(self.raw(), &mut text.0, is_pretty) }
    }

    pub fn print_canonical(&self, text: &mut Text) -> Code {
        // SAFETY: as above.
        unsafe { sys::sj_print_canonical(self.raw(), &mut text.0) }
    }

    pub fn print_at(&self, path: &str, text: &mut Text, is_pretty: bool) -> Code {
        // SAFETY: as above; the path is only read.
        unsafe {
            sys::sj_print_at(
                self.raw(),
                path.as_ptr(),
                path.len(),
                &mut text.0,
                is_pretty,
            )
        }
    }

    /// What stands at the pointer.
    pub fn find(&self, path: &str) -> Result<Seen<'_>, Code> {
        let mut found = NOTHING;
        // SAFETY: as above; the path is only read.
        match unsafe { sys::sj_find(self.raw(), path.as_ptr(), path.len(), &mut found) } {
            // SAFETY: while the handle is borrowed, it is neither edited nor let go.
            0 => Ok(unsafe { Seen::of(&found) }),
            code => Err(code),
        }
    }

    /// The items of the array at the pointer, which are so many.
    pub fn items(&self, path: &str, len: usize) -> Result<Vec<Seen<'_>>, Code> {
        let (mut items, mut count) = (vec![NOTHING; len], 0);
        // SAFETY: as above; `items` has that much room.
        let code = unsafe {
            sys::sj_items(
                self.raw(),
                path.as_ptr(),
                path.len(),
                0,
                items.as_mut_ptr(),
                items.len(),
                &mut count,
            )
        };
        if code != 0 {
            return Err(code);
        }
        items.truncate(count);
        // SAFETY: while the handle is borrowed, it is neither edited nor let go.
        Ok(items
            .iter()
            .map(|found| unsafe { Seen::of(found) })
            .collect())
    }

    /// The members of the object at the pointer, which are so many.
    pub fn members(&self, path: &str, len: usize) -> Result<Vec<(&str, Seen<'_>)>, Code> {
        let (mut members, mut count) = (vec![NO_MEMBER; len], 0);
        // SAFETY: as above; `members` has that much room.
        let code = unsafe {
            sys::sj_members(
                self.raw(),
                path.as_ptr(),
                path.len(),
                0,
                members.as_mut_ptr(),
                members.len(),
                &mut count,
            )
        };
        if code != 0 {
            return Err(code);
        }
        members.truncate(count);
        // SAFETY: while the handle is borrowed, it is neither edited nor let go.
        Ok(members
            .iter()
            .map(|member| unsafe {
                let key = text_at(member.key, member.key_len);
                (key, Seen::of(&member.value))
            })
            .collect())
    }

    pub fn insert(&mut self, path: &str, key: &str, value: &mut Doc, old: &mut Doc) -> Code {
        // SAFETY: three different handles, lent to the call alone; the texts are only read.
        unsafe {
            sys::sj_insert(
                self.raw(),
                path.as_ptr(),
                path.len(),
                key.as_ptr(),
                key.len(),
                value.raw(),
                old.raw(),
            )
        }
    }

    pub fn push(&mut self, path: &str, value: &mut Doc, old: &mut Doc) -> Code {
        // SAFETY: as above.
        unsafe {
            sys::sj_push(
                self.raw(),
                path.as_ptr(),
                path.len(),
                value.raw(),
                old.raw(),
            )
        }
    }

    pub fn put(&mut self, path: &str, value: &mut Doc, old: &mut Doc) -> Code {
        // SAFETY: as above.
        unsafe {
            sys::sj_put(
                self.raw(),
                path.as_ptr(),
                path.len(),
                value.raw(),
                old.raw(),
            )
        }
    }

    pub fn set(&mut self, path: &str, value: &mut Doc, old: &mut Doc) -> Code {
        // SAFETY: as above.
        unsafe {
            sys::sj_set(
                self.raw(),
                path.as_ptr(),
                path.len(),
                value.raw(),
                old.raw(),
            )
        }
    }

    pub fn remove(&mut self, path: &str, key: &str, old: &mut Doc) -> Code {
        // SAFETY: as above.
        unsafe {
            sys::sj_remove(
                self.raw(),
                path.as_ptr(),
                path.len(),
                key.as_ptr(),
                key.len(),
                old.raw(),
            )
        }
    }

    pub fn pop(&mut self, path: &str, old: &mut Doc) -> Code {
        // SAFETY: as above.
        unsafe { sys::sj_pop(self.raw(), path.as_ptr(), path.len(), old.raw()) }
    }

    /// Does the operations of the patch; where one fails, its number is the second answer.
    pub fn patch(&mut self, patch: &Doc) -> (Code, usize) {
        let mut at = 0;
        // SAFETY: one handle is lent to the call alone, so the other is a different one, and no other
        // call is under way.
        let code = unsafe { sys::sj_patch(self.raw(), patch.raw(), &mut at) };
        (code, at)
    }

    pub fn merge(&mut self, patch: &Doc) -> Code {
        // SAFETY: as above.
        unsafe { sys::sj_merge(self.raw(), patch.raw()) }
    }

    /// Puts the operations that lead to another document into `patch`. That is no handle of this one.
    pub fn diff(&self, to: &Doc, patch: &mut Doc) -> Code {
        assert!(!ptr::eq(self, to), "two handles are two");
        // SAFETY: three different handles, and no other call is under way.
        unsafe { sys::sj_diff(self.raw(), to.raw(), patch.raw()) }
    }

    /// The same of a merge patch.
    pub fn merge_diff(&self, to: &Doc, patch: &mut Doc) -> Code {
        assert!(!ptr::eq(self, to), "two handles are two");
        // SAFETY: as above.
        unsafe { sys::sj_merge_diff(self.raw(), to.raw(), patch.raw()) }
    }

    pub fn lines(&mut self, lines: &mut [u8], text: &mut Text) -> Code {
        // SAFETY: the handles and the bytes are lent to the call alone.
        unsafe { sys::sj_lines(self.raw(), lines.as_mut_ptr(), lines.len(), &mut text.0) }
    }
}

impl Drop for Doc {
    fn drop(&mut self) {
        // SAFETY: the handle is not used again.
        unsafe { sys::sj_free(self.raw()) }
    }
}

/// A handle of a print, or of none.
pub struct Text(sys::Text);

// SAFETY: what a handle owns may go to another thread; `KeptText` of crates/sj_c has the proof.
unsafe impl Send for Text {}

impl Text {
    pub fn empty() -> Text {
        Text(sys::Text {
            at: ptr::null_mut(),
            is_open: false,
        })
    }

    /// The print, which takes the handle out of use.
    pub fn read(mut self) -> Result<Print, Code> {
        let (mut at, mut len) = (ptr::null(), 0);
        // SAFETY: the handle is lent to the call alone.
        match unsafe { sys::sj_text_bytes(&mut self.0, &mut at, &mut len) } {
            0 => Ok(Print {
                at,
                len,
                _text: self,
            }),
            code => Err(code),
        }
    }
}

impl Drop for Text {
    fn drop(&mut self) {
        // SAFETY: the handle is not used again.
        unsafe { sys::sj_text_free(&mut self.0) }
    }
}

/// A print, where it lies.
pub struct Print {
    at: *const u8,
    len: usize,
    _text: Text,
}

// SAFETY: the bytes are only read, and go where the handle goes.
unsafe impl Send for Print {}
// SAFETY: the bytes are only read, and the handle is not used until it is dropped.
unsafe impl Sync for Print {}

impl Print {
    pub fn as_str(&self) -> &str {
        // SAFETY: the handle holds the bytes, and no call uses it until it is dropped.
        unsafe { text_at(self.at, self.len) }
    }
}

/// What stands at the pointer in the text, which is written over.
pub fn peek<'i>(bytes: &'i mut [u8], last: bool, path: &str) -> Result<Seen<'i>, Code> {
    let mut found = NOTHING;
    // SAFETY: the bytes are lent to the call alone, and the path is only read.
    let code = unsafe {
        sys::sj_peek(
            bytes.as_mut_ptr(),
            bytes.len(),
            last,
            path.as_ptr(),
            path.len(),
            &mut found,
        )
    };
    match code {
        // SAFETY: a text lies in the bytes, which nobody writes to during their borrow.
        0 => Ok(unsafe { Seen::of(&found) }),
        code => Err(code),
    }
}

pub fn session(input: &mut [u8], form: u32, last: bool, text: &mut Text) -> Code {
    // SAFETY: the bytes and the handle are lent to the call alone.
    unsafe { sys::sj_session(input.as_mut_ptr(), input.len(), form, last, &mut text.0) }
}
