//! The calls of sj.h. tools/signatures.py compares them with the library's exports.

use std::ffi::c_void;

#[repr(C)]
pub struct Doc {
    pub at: *mut c_void,
    pub is_open: bool,
}

#[repr(C)]
pub struct Text {
    pub at: *mut c_void,
    pub is_open: bool,
}

#[repr(C)]
pub struct Buffers {
    pub nodes: usize,
}

#[repr(C)]
#[derive(Clone, Copy)]
pub struct Found {
    pub kind: u32,
    pub is_true: bool,
    pub is_signed: bool,
    pub is_unsigned: bool,
    pub signed: i64,
    pub unsigned: u64,
    pub low: u64,
    pub high: u64,
    pub len: usize,
    pub text: *const u8,
}

#[repr(C)]
#[derive(Clone, Copy)]
pub struct Member {
    pub key: *const u8,
    pub key_len: usize,
    pub value: Found,
}

extern "C" {
    pub fn sj_read(doc: *mut Doc, bytes: *mut u8, len: usize, last: bool) -> u32;
    pub fn sj_read_with_buffers(
        doc: *mut Doc,
        bytes: *mut u8,
        len: usize,
        buffers: *mut Buffers,
    ) -> u32;
    pub fn sj_free(doc: *mut Doc);
    pub fn sj_clone(doc: *mut Doc, copy: *mut Doc) -> u32;
    pub fn sj_same(one: *mut Doc, other: *mut Doc, same: *mut bool) -> u32;
    pub fn sj_of_null(doc: *mut Doc) -> u32;
    pub fn sj_of_bool(doc: *mut Doc, truth: bool) -> u32;
    pub fn sj_of_signed(doc: *mut Doc, number: i64) -> u32;
    pub fn sj_of_unsigned(doc: *mut Doc, number: u64) -> u32;
    pub fn sj_of_wide(doc: *mut Doc, low: u64, high: u64, is_signed: bool) -> u32;
    pub fn sj_of_text(doc: *mut Doc, bytes: *const u8, len: usize) -> u32;
    pub fn sj_of_array(doc: *mut Doc) -> u32;
    pub fn sj_of_object(doc: *mut Doc) -> u32;
    pub fn sj_print(doc: *mut Doc, text: *mut Text, is_pretty: bool) -> u32;
    pub fn sj_print_canonical(doc: *mut Doc, text: *mut Text) -> u32;
    pub fn sj_text_bytes(text: *mut Text, at: *mut *const u8, len: *mut usize) -> u32;
    pub fn sj_text_free(text: *mut Text);
    pub fn sj_find(doc: *mut Doc, path: *const u8, path_len: usize, found: *mut Found) -> u32;
    pub fn sj_print_at(
        doc: *mut Doc,
        path: *const u8,
        path_len: usize,
        text: *mut Text,
        is_pretty: bool,
    ) -> u32;
    pub fn sj_clone_at(doc: *mut Doc, path: *const u8, path_len: usize, copy: *mut Doc) -> u32;
    pub fn sj_items(
        doc: *mut Doc,
        path: *const u8,
        path_len: usize,
        from: usize,
        out: *mut Found,
        room: usize,
        count: *mut usize,
    ) -> u32;
    pub fn sj_members(
        doc: *mut Doc,
        path: *const u8,
        path_len: usize,
        from: usize,
        out: *mut Member,
        room: usize,
        count: *mut usize,
    ) -> u32;
    pub fn sj_peek(
        bytes: *mut u8,
        len: usize,
        last: bool,
        path: *const u8,
        path_len: usize,
        found: *mut Found,
    ) -> u32;
    pub fn sj_insert(
        doc: *mut Doc,
        path: *const u8,
        path_len: usize,
        key: *const u8,
        key_len: usize,
        value: *mut Doc,
        old: *mut Doc,
    ) -> u32;
    pub fn sj_push(
        doc: *mut Doc,
        path: *const u8,
        path_len: usize,
        value: *mut Doc,
        old: *mut Doc,
    ) -> u32;
    pub fn sj_put(
        doc: *mut Doc,
        path: *const u8,
        path_len: usize,
        value: *mut Doc,
        old: *mut Doc,
    ) -> u32;
    pub fn sj_set(
        doc: *mut Doc,
        path: *const u8,
        path_len: usize,
        value: *mut Doc,
        old: *mut Doc,
    ) -> u32;
    pub fn sj_remove(
        doc: *mut Doc,
        path: *const u8,
        path_len: usize,
        key: *const u8,
        key_len: usize,
        old: *mut Doc,
    ) -> u32;
    pub fn sj_pop(doc: *mut Doc, path: *const u8, path_len: usize, old: *mut Doc) -> u32;
    pub fn sj_patch(doc: *mut Doc, patch: *mut Doc, at: *mut usize) -> u32;
    pub fn sj_diff(from: *mut Doc, to: *mut Doc, patch: *mut Doc) -> u32;
    pub fn sj_merge(doc: *mut Doc, patch: *mut Doc) -> u32;
    pub fn sj_merge_diff(from: *mut Doc, to: *mut Doc, patch: *mut Doc) -> u32;
    pub fn sj_lines(doc: *mut Doc, lines: *mut u8, len: usize, text: *mut Text) -> u32;
    pub fn sj_session(input: *mut u8, len: usize, form: u32, last: bool, text: *mut Text) -> u32;
}
