//! The words of a line, read one after another.

use super::hex::{decode, octets_of};
use super::Unread;
use crate::delivery::Outcome;
use crate::id::TransactionId;
use crate::link::{ControlLink, Handle, LinkName, Role};

/// The words of a line that are left; none are left after the last.
pub(crate) struct Words<'a> {
    pub(super) left: Option<&'a [u8]>,
}

pub(super) const UNREAD: Unread = Unread(());

impl<'a> Words<'a> {
    /// Reads a whole line.
    pub(crate) fn read<T>(
        line: &'a [u8],
        read: impl FnOnce(&mut Words<'a>) -> Result<T, Unread>,
    ) -> Result<T, Unread> {
        let mut words = Words { left: Some(line) };
        let value = read(&mut words)?;
        match words.left {
            None => Ok(value),
            Some(_) => Err(UNREAD),
        }
    }

    /// Reads a whole text.
    pub(crate) fn read_all<T>(
        text: &'a str,
        read: impl FnOnce(&mut Words<'a>) -> Result<T, Unread>,
    ) -> Result<T, Unread> {
        Words::read(text.as_bytes(), read)
    }

    pub(super) fn word(&mut self) -> Result<&'a [u8], Unread> {
        let left = self.left.ok_or(UNREAD)?;
        match left.iter().position(|octet| *octet == b' ') {
            Some(place) => {
                self.left = Some(&left[place + 1..]);
                Ok(&left[..place])
            }
            None => {
                self.left = None;
                Ok(left)
            }
        }
    }

    /// A word that isn't `-`, or none.
    pub(super) fn optional<T>(
        &mut self,
        read: impl FnOnce(&mut Words<'a>) -> Result<T, Unread>,
    ) -> Result<Option<T>, Unread> {
        match self.left {
            Some([b'-']) => {
                self.left = None;
                Ok(None)
            }
            Some([b'-', b' ', left @ ..]) => {
                self.left = Some(left);
                Ok(None)
            }
            _ => read(self).map(Some),
        }
    }

    pub(crate) fn u64(&mut self) -> Result<u64, Unread> {
        let word = self.word()?;
        if word.is_empty() || (word[0] == b'0' && word.len() > 1) {
            return Err(UNREAD);
        }
        word.iter().try_fold(0u64, |number, octet| {
            let digit = octet.wrapping_sub(b'0');
            if digit > 9 {
                return Err(UNREAD);
            }
            let tens = number.checked_mul(10).ok_or(UNREAD)?;
            tens.checked_add(digit.into()).ok_or(UNREAD)
        })
    }

    pub(super) fn u32(&mut self) -> Result<u32, Unread> {
        self.u64()?.try_into().map_err(|_| UNREAD)
    }

    pub(super) fn bool(&mut self) -> Result<bool, Unread> {
        match self.word()? {
            b"true" => Ok(true),
            b"false" => Ok(false),
            _ => Err(UNREAD),
        }
    }

    pub(super) fn handle(&mut self) -> Result<Handle, Unread> {
        Ok(Handle(self.u32()?))
    }

    pub(super) fn control_link(&mut self) -> Result<ControlLink, Unread> {
        Ok(ControlLink(self.u64()?))
    }

    pub(super) fn name(&mut self) -> Result<LinkName, Unread> {
        let text = std::str::from_utf8(self.word()?).map_err(|_| UNREAD)?;
        LinkName::new(text).map_err(|_| UNREAD)
    }

    pub(super) fn role(&mut self) -> Result<Role, Unread> {
        match self.word()? {
            b"sender" => Ok(Role::Sender),
            b"receiver" => Ok(Role::Receiver),
            _ => Err(UNREAD),
        }
    }

    /// The octets of a message, or `-` for none.
    pub(super) fn payload(&mut self) -> Result<Vec<u8>, Unread> {
        let octets = self.optional(|words| octets_of(words.word()?))?;
        match octets {
            None => Ok(Vec::new()),
            Some(octets) if octets.is_empty() => Err(UNREAD),
            Some(octets) => Ok(octets),
        }
    }

    pub(crate) fn txn_id(&mut self) -> Result<TransactionId, Unread> {
        txn_id_of(self.word()?)
    }

    pub(super) fn outcome(&mut self) -> Result<Outcome, Unread> {
        outcome_of(self.word()?).ok_or(UNREAD)
    }
}

pub(super) fn outcome_of(word: &[u8]) -> Option<Outcome> {
    match word {
        b"accepted" => Some(Outcome::Accepted),
        b"rejected" => Some(Outcome::Rejected),
        b"released" => Some(Outcome::Released),
        b"modified" => Some(Outcome::Modified),
        _ => None,
    }
}

pub(super) fn txn_id_of(word: &[u8]) -> Result<TransactionId, Unread> {
    let mut octets = [0; TransactionId::MAX_LEN];
    let len = word.len() / 2;
    let octets = octets.get_mut(..len).ok_or(UNREAD)?;
    decode(word, octets)?;
    TransactionId::new(octets).map_err(|_| UNREAD)
}
