//! Why calls are refused.

use crate::raw::Code;
use std::fmt;

/// What is wrong with an operation of a patch (RFC 6902).
#[derive(Clone, Copy, Debug, PartialEq, Eq, Hash)]
#[non_exhaustive]
pub enum PatchFault {
    /// The item is no object.
    NotAnObject,
    /// It has no "op" that names an operation.
    Op,
    /// It has no "path" that is a pointer.
    Path,
    /// It has no "from" that is a pointer.
    From,
    /// It has no "value".
    Value,
    /// Nothing stands where something has to.
    Missing,
    /// No item can go to that place of the array.
    NoPlace,
    /// The whole document cannot be removed.
    Whole,
    /// A value cannot be moved into itself.
    IntoItself,
    /// A test found another value.
    Differs,
}

impl PatchFault {
    fn of(code: Code) -> Option<PatchFault> {
        Some(match code {
            33 => PatchFault::NotAnObject,
            34 => PatchFault::Op,
            35 => PatchFault::Path,
            36 => PatchFault::From,
            37 => PatchFault::Value,
            48 => PatchFault::Missing,
            49 => PatchFault::NoPlace,
            50 => PatchFault::Whole,
            51 => PatchFault::IntoItself,
            52 => PatchFault::Differs,
            _ => return None,
        })
    }
}

impl fmt::Display for PatchFault {
    fn fmt(&self, f: &mut fmt::Formatter<'_>) -> fmt::Result {
        f.write_str(match self {
            PatchFault::NotAnObject => "no object",
            PatchFault::Op => "no \"op\" that names an operation",
            PatchFault::Path => "no \"path\" that is a pointer",
            PatchFault::From => "no \"from\" that is a pointer",
            PatchFault::Value => "no \"value\"",
            PatchFault::Missing => "nothing stands there",
            PatchFault::NoPlace => "no such place in the array",
            PatchFault::Whole => "the whole document cannot be removed",
            PatchFault::IntoItself => "a value cannot be moved into itself",
            PatchFault::Differs => "the value differs",
        })
    }
}

/// Why a call was refused.
#[derive(Clone, Copy, Debug, PartialEq, Eq, Hash)]
#[non_exhaustive]
pub enum Error {
    /// A request for memory was refused.
    OutOfMemory,
    /// A print would pass 2^64-1 bytes.
    TooLong,
    /// Nothing stands at the pointer.
    Missing,
    /// The value is no object.
    NotAnObject,
    /// The value is no array.
    NotAnArray,
    /// The path is no JSON pointer (RFC 6901).
    BadPointer,
    /// The bytes are not UTF-8.
    InvalidUtf8,
    /// A byte can't continue the text.
    Syntax,
    /// An escape is half of a surrogate pair.
    LoneSurrogate,
    /// A number has a fraction or an exponent.
    Float,
    /// A number is not from -2^127 to 2^128-1.
    NumberTooLarge,
    /// More arrays and objects stand inside one another than the call takes: 1,024 in a text, in a
    /// patch, and in both of two documents that are compared; 256 in a merge patch, and in the document
    /// that one is asked to lead to.
    TooDeep,
    /// A patch is an array.
    PatchNotAnArray,
    /// The operation of a patch with that number, from 0 on, is none or has no result.
    Patch { operation: usize, fault: PatchFault },
    /// A status that this version does not know.
    Other(u32),
}

/// What this crate's calls answer.
pub type Result<T> = std::result::Result<T, Error>;

impl Error {
    fn of(code: Code) -> Error {
        match code {
            1 => Error::OutOfMemory,
            2 => Error::TooLong,
            4 => Error::Missing,
            5 => Error::NotAnObject,
            6 => Error::NotAnArray,
            7 => Error::BadPointer,
            16 => Error::InvalidUtf8,
            17 => Error::Syntax,
            18 => Error::LoneSurrogate,
            19 => Error::Float,
            20 => Error::NumberTooLarge,
            21 => Error::TooDeep,
            32 => Error::PatchNotAnArray,
            other => Error::Other(other),
        }
    }
}

pub(crate) fn check(code: Code) -> Result<()> {
    match code {
        0 => Ok(()),
        code => Err(Error::of(code)),
    }
}

/// The same of a patch, whose operations have numbers.
pub(crate) fn check_patch((code, operation): (Code, usize)) -> Result<()> {
    match PatchFault::of(code) {
        Some(fault) => Err(Error::Patch { operation, fault }),
        None => check(code),
    }
}

pub(crate) fn checked<T>(result: std::result::Result<T, Code>) -> Result<T> {
    result.map_err(Error::of)
}

/// What stands somewhere, or that nothing does.
pub(crate) fn found<T>(result: std::result::Result<T, Code>) -> Result<Option<T>> {
    match checked(result) {
        Ok(value) => Ok(Some(value)),
        Err(Error::Missing) => Ok(None),
        Err(error) => Err(error),
    }
}

impl fmt::Display for Error {
    fn fmt(&self, f: &mut fmt::Formatter<'_>) -> fmt::Result {
        match self {
            Error::OutOfMemory => f.write_str("out of memory"),
            Error::TooLong => f.write_str("the output would be too long"),
            Error::Missing => f.write_str("nothing stands at the pointer"),
            Error::NotAnObject => f.write_str("not an object"),
            Error::NotAnArray => f.write_str("not an array"),
            Error::BadPointer => f.write_str("not a JSON pointer"),
            Error::InvalidUtf8 => f.write_str("invalid UTF-8"),
            Error::Syntax => f.write_str("syntax error"),
            Error::LoneSurrogate => f.write_str("lone surrogate"),
            Error::Float => f.write_str("number with a fraction or an exponent"),
            Error::NumberTooLarge => f.write_str("number too large"),
            Error::TooDeep => f.write_str("nested too deep"),
            Error::PatchNotAnArray => f.write_str("a patch is an array"),
            Error::Patch { operation, fault } => write!(f, "operation {operation}: {fault}"),
            Error::Other(code) => write!(f, "refused ({code})"),
        }
    }
}

impl std::error::Error for Error {}
