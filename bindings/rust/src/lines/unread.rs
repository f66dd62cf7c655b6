//! A text that isn't of the form that is read.

use std::fmt;

/// A text that is no step, frame or id, as it was to be.
#[derive(Clone, Copy, Debug, PartialEq, Eq)]
pub struct Unread(pub(super) ());

impl fmt::Display for Unread {
    fn fmt(&self, f: &mut fmt::Formatter<'_>) -> fmt::Result {
        f.write_str("the text is not of the form that is read")
    }
}

impl std::error::Error for Unread {}
