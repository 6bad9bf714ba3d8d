//! How texts are read.

use crate::raw;
use std::fmt;

/// Which member of several with one key stays when a text is read.
#[derive(Clone, Copy, Debug, Default, PartialEq, Eq, Hash)]
pub enum Keep {
    /// The first.
    #[default]
    First,
    /// The last, in the place of the first.
    Last,
}

/// What readings share, one after another: for how many nodes of a text the next one makes room at
/// once, which is as many as the largest text had so far.
pub struct Buffers(pub(crate) raw::Buffers);

impl fmt::Debug for Buffers {
    fn fmt(&self, f: &mut fmt::Formatter<'_>) -> fmt::Result {
        f.debug_struct("Buffers").finish_non_exhaustive()
    }
}

impl Default for Buffers {
    fn default() -> Buffers {
        Buffers(raw::Buffers::new())
    }
}
