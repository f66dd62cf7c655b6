//! The id of a transaction, and of a global one.

use std::fmt;
use std::str::FromStr;

use crate::lines::{put_hex, show, Unread, Words};

/// At most 32 octets.
#[derive(Clone, Copy, PartialEq, Eq, PartialOrd, Ord, Hash)]
struct ShortOctets {
    octets: [u8; ShortOctets::MAX_LEN],
    len: u8,
}

impl ShortOctets {
    const MAX_LEN: usize = 32;

    fn new(octets: &[u8]) -> Option<Self> {
        let mut short = ShortOctets {
            octets: [0; Self::MAX_LEN],
            len: 0,
        };
        short
            .octets
            .get_mut(..octets.len())?
            .copy_from_slice(octets);
        short.len = octets.len() as u8;
        Some(short)
    }

    fn as_bytes(&self) -> &[u8] {
        &self.octets[..usize::from(self.len)]
    }
}

/// The id of a transaction: 1 to 32 octets. Part 4 of the standard, section 4.5.4.
///
/// The standard allows an empty id too; no transaction is ever given it.
///
/// An id is written and read as hexadecimal digits:
///
/// ```
/// use daxurbi::TransactionId;
///
/// let id = TransactionId::new(&[0xca, 0xfe])?;
/// assert_eq!(id.to_string(), "cafe");
/// assert_eq!("CAFE".parse(), Ok(id));
/// # Ok::<(), daxurbi::IdError>(())
/// ```
#[derive(Clone, Copy, PartialEq, Eq, PartialOrd, Ord, Hash)]
pub struct TransactionId(ShortOctets);

impl TransactionId {
    /// The most octets that an id has.
    pub const MAX_LEN: usize = ShortOctets::MAX_LEN;

    /// The id of these octets.
    ///
    /// # Errors
    ///
    /// Where there are none, or more than [`MAX_LEN`](Self::MAX_LEN).
    pub fn new(octets: &[u8]) -> Result<Self, IdError> {
        match ShortOctets::new(octets) {
            Some(short) if !octets.is_empty() => Ok(TransactionId(short)),
            _ => Err(IdError { len: octets.len() }),
        }
    }

    /// The octets of the id.
    pub fn as_bytes(&self) -> &[u8] {
        self.0.as_bytes()
    }

    pub(crate) fn put(&self, line: &mut Vec<u8>) {
        put_hex(line, self.as_bytes());
    }
}

impl AsRef<[u8]> for TransactionId {
    fn as_ref(&self) -> &[u8] {
        self.as_bytes()
    }
}

impl TryFrom<&[u8]> for TransactionId {
    type Error = IdError;

    fn try_from(octets: &[u8]) -> Result<Self, IdError> {
        TransactionId::new(octets)
    }
}

impl FromStr for TransactionId {
    type Err = Unread;

    fn from_str(text: &str) -> Result<Self, Unread> {
        Words::read_all(text, Words::txn_id)
    }
}

impl fmt::Display for TransactionId {
    fn fmt(&self, f: &mut fmt::Formatter<'_>) -> fmt::Result {
        show(f, |line| self.put(line))
    }
}

impl fmt::Debug for TransactionId {
    fn fmt(&self, f: &mut fmt::Formatter<'_>) -> fmt::Result {
        write!(f, "TransactionId({self})")
    }
}

/// The id of a distributed transaction, in a declare: at most 32 octets. A session doesn't support
/// them and rejects such a declare. Part 4 of the standard, section 4.5.1.
#[derive(Clone, Copy, PartialEq, Eq, PartialOrd, Ord, Hash)]
pub struct GlobalId(ShortOctets);

impl GlobalId {
    /// The most octets that an id has.
    pub const MAX_LEN: usize = ShortOctets::MAX_LEN;

    /// The id of these octets.
    ///
    /// # Errors
    ///
    /// Where there are more than [`MAX_LEN`](Self::MAX_LEN).
    pub fn new(octets: &[u8]) -> Result<Self, IdError> {
        match ShortOctets::new(octets) {
            Some(short) => Ok(GlobalId(short)),
            None => Err(IdError { len: octets.len() }),
        }
    }

    /// The octets of the id.
    pub fn as_bytes(&self) -> &[u8] {
        self.0.as_bytes()
    }
}

impl fmt::Debug for GlobalId {
    fn fmt(&self, f: &mut fmt::Formatter<'_>) -> fmt::Result {
        f.write_str("GlobalId(")?;
        show(f, |line| put_hex(line, self.as_bytes()))?;
        f.write_str(")")
    }
}

/// Octets that are no id: too many, or none where there has to be one.
#[derive(Clone, Copy, Debug, PartialEq, Eq)]
pub struct IdError {
    len: usize,
}

impl fmt::Display for IdError {
    fn fmt(&self, f: &mut fmt::Formatter<'_>) -> fmt::Result {
        write!(f, "{} octets are no id", self.len)
    }
}

impl std::error::Error for IdError {}
