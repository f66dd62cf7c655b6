//! Replies and stops, read from their words.

use super::words::{Words, UNREAD};
use super::Unread;
use crate::reply::{RejectText, Reply, TransactionError};
use crate::stop::{Refusal, Stop};

impl Words<'_> {
    fn refusal(&mut self) -> Result<Refusal, Unread> {
        refusal_of(self.word()?).ok_or(UNREAD)
    }

    pub(crate) fn stop(&mut self) -> Result<Stop, Unread> {
        let word = self.word()?;
        if let Some(refusal) = refusal_of(word) {
            return Ok(Stop::Refused(refusal));
        }
        let mut stops = Stop::UNREFUSED.into_iter();
        stops
            .find(|stop| stop.word().as_bytes() == word)
            .ok_or(UNREAD)
    }

    pub(crate) fn reply(&mut self) -> Result<Reply, Unread> {
        match self.word()? {
            b"ok" => Ok(Reply::Ok),
            b"attached" => Ok(Reply::Attached(self.control_link()?)),
            b"attach-refused" => Ok(Reply::AttachRefused(self.refusal()?)),
            b"link-ended" => Ok(Reply::LinkEnded),
            b"no-link" => Ok(Reply::NoLink),
            b"link-closed" => match self.word()? {
                b"not-allowed" => Ok(Reply::LinkClosed),
                _ => Err(UNREAD),
            },
            b"declared" => Ok(Reply::Declared(self.txn_id()?)),
            b"accepted" => Ok(Reply::Accepted),
            b"rejected" => Ok(Reply::Rejected(self.rejection()?)),
            _ => Err(UNREAD),
        }
    }

    fn rejection(&mut self) -> Result<TransactionError, Unread> {
        match self.word()? {
            b"rollback" => return Ok(TransactionError::Rollback),
            b"unknown-id" => {}
            _ => return Err(UNREAD),
        }
        if self.left.is_none() {
            return Ok(TransactionError::UnknownId(RejectText::Absent));
        }
        match self.word()? {
            b"global-id" => Ok(TransactionError::UnknownId(RejectText::GlobalId)),
            b"ids-repeat" => Ok(TransactionError::UnknownId(RejectText::IdsRepeat)),
            _ => Err(UNREAD),
        }
    }
}

fn refusal_of(word: &[u8]) -> Option<Refusal> {
    let mut refusals = Refusal::ALL.into_iter();
    refusals.find(|refusal| refusal.word().as_bytes() == word)
}
