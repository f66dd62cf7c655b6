//! Links: their names, handles and roles, and the numbers of control links.

use std::fmt;
use std::str::FromStr;

/// The name of a link: 1 to 64 of the ASCII letters and digits, `-`, `_` and `.`.
///
/// The standard allows any string; a broker names a link of another name by one of its own.
#[derive(Clone, PartialEq, Eq, PartialOrd, Ord, Hash)]
pub struct LinkName(Box<str>);

impl LinkName {
    /// The most characters that a name has.
    pub const MAX_LEN: usize = 64;

    /// The link name of this text.
    ///
    /// # Errors
    ///
    /// Where it is empty, too long, or has another character.
    pub fn new(text: &str) -> Result<Self, LinkNameError> {
        let is_name = !text.is_empty()
            && text.len() <= Self::MAX_LEN
            && text
                .bytes()
                .all(|octet| octet.is_ascii_alphanumeric() || matches!(octet, b'-' | b'_' | b'.'));
        if is_name {
            Ok(LinkName(text.into()))
        } else {
            Err(LinkNameError(()))
        }
    }

    /// The name as text.
    pub fn as_str(&self) -> &str {
        &self.0
    }
}

impl AsRef<str> for LinkName {
    fn as_ref(&self) -> &str {
        self.as_str()
    }
}

impl FromStr for LinkName {
    type Err = LinkNameError;

    fn from_str(text: &str) -> Result<Self, LinkNameError> {
        LinkName::new(text)
    }
}

impl fmt::Display for LinkName {
    fn fmt(&self, f: &mut fmt::Formatter<'_>) -> fmt::Result {
        f.write_str(self.as_str())
    }
}

impl fmt::Debug for LinkName {
    fn fmt(&self, f: &mut fmt::Formatter<'_>) -> fmt::Result {
        write!(f, "LinkName({self})")
    }
}

/// A text that is no [`LinkName`].
#[derive(Clone, Copy, Debug, PartialEq, Eq)]
pub struct LinkNameError(());

impl fmt::Display for LinkNameError {
    fn fmt(&self, f: &mut fmt::Formatter<'_>) -> fmt::Result {
        f.write_str("a link's name has 1 to 64 of the letters, the digits, '-', '_' and '.'")
    }
}

impl std::error::Error for LinkNameError {}

/// The handle of a link on its session. Part 2 of the standard, section 2.8.2.
#[derive(Clone, Copy, Debug, PartialEq, Eq, PartialOrd, Ord, Hash)]
pub struct Handle(pub u32);

impl fmt::Display for Handle {
    fn fmt(&self, f: &mut fmt::Formatter<'_>) -> fmt::Result {
        self.0.fmt(f)
    }
}

/// The number of a control link: links are numbered from 0, in the order in which a session
/// accepted their attaches.
#[derive(Clone, Copy, Debug, PartialEq, Eq, PartialOrd, Ord, Hash)]
pub struct ControlLink(pub u64);

impl fmt::Display for ControlLink {
    fn fmt(&self, f: &mut fmt::Formatter<'_>) -> fmt::Result {
        self.0.fmt(f)
    }
}

/// The role of a link's end. Part 2 of the standard, section 2.8.1.
#[derive(Clone, Copy, Debug, PartialEq, Eq, Hash)]
pub enum Role {
    /// It sends messages.
    Sender,
    /// It receives messages.
    Receiver,
}

impl Role {
    pub(crate) fn word(self) -> &'static str {
        match self {
            Role::Sender => "sender",
            Role::Receiver => "receiver",
        }
    }
}

impl fmt::Display for Role {
    fn fmt(&self, f: &mut fmt::Formatter<'_>) -> fmt::Result {
        f.write_str(self.word())
    }
}
