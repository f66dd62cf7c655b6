//! Frames, read from their words.

use super::words::{outcome_of, txn_id_of, Words, UNREAD};
use super::Unread;
use crate::delivery::{DeliveryState, TransactionalState};
use crate::frame::{Attach, Detach, Disposition, Flow, Frame, Transfer};

impl<'a> Words<'a> {
    pub(crate) fn frame(&mut self) -> Result<Frame, Unread> {
        match self.word()? {
            b"attach" => Ok(Frame::Attach(self.attach()?)),
            b"flow" => Ok(Frame::Flow(Flow {
                handle: self.optional(Words::handle)?,
                link_credit: self.optional(Words::u32)?,
            })),
            b"transfer" => Ok(Frame::Transfer(
                self.transfer(|words| words.optional(Words::state))?,
            )),
            b"disposition" => Ok(Frame::Disposition(
                self.disposition(|words| words.optional(Words::state))?,
            )),
            b"detach" => Ok(Frame::Detach(self.detach()?)),
            _ => Err(UNREAD),
        }
    }

    fn state(&mut self) -> Result<DeliveryState, Unread> {
        let word = self.word()?;
        if let Some(outcome) = outcome_of(word) {
            return Ok(DeliveryState::Outcome(outcome));
        }
        if word == b"received" {
            return Ok(DeliveryState::Received);
        }
        if let Some(id) = word.strip_prefix(b"declared:") {
            return Ok(DeliveryState::Declared(txn_id_of(id)?));
        }
        let under = word.strip_prefix(b"txn:").ok_or(UNREAD)?;
        let colon = under.iter().position(|octet| *octet == b':');
        let colon = colon.ok_or(UNREAD)?;
        let outcome = match &under[colon + 1..] {
            b"-" => None,
            word => Some(outcome_of(word).ok_or(UNREAD)?),
        };
        Ok(DeliveryState::Transactional(TransactionalState {
            txn_id: txn_id_of(&under[..colon])?,
            outcome,
        }))
    }

    /// `ROLE FIRST LAST BOOL`, and then a state.
    pub(super) fn disposition<S>(
        &mut self,
        state: impl FnOnce(&mut Words<'a>) -> Result<Option<S>, Unread>,
    ) -> Result<Disposition<S>, Unread> {
        Ok(Disposition {
            role: self.role()?,
            first: self.u32()?,
            last: self.optional(Words::u32)?,
            settled: self.bool()?,
            state: state(self)?,
        })
    }

    /// `H ID SET`, then a state, then the payload.
    pub(super) fn transfer<S>(
        &mut self,
        state: impl FnOnce(&mut Words<'a>) -> Result<Option<S>, Unread>,
    ) -> Result<Transfer<S>, Unread> {
        Ok(Transfer {
            handle: self.handle()?,
            delivery_id: self.optional(Words::u32)?,
            settled: self.optional(Words::bool)?,
            state: state(self)?,
            payload: self.payload()?,
        })
    }

    pub(super) fn attach(&mut self) -> Result<Attach, Unread> {
        Ok(Attach {
            name: self.name()?,
            handle: self.handle()?,
            role: self.role()?,
        })
    }

    pub(super) fn detach(&mut self) -> Result<Detach, Unread> {
        Ok(Detach {
            handle: self.handle()?,
            closed: self.bool()?,
        })
    }
}
