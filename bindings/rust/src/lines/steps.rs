//! Steps, read from their words.

use super::words::{Words, UNREAD};
use super::Unread;
use crate::delivery::TransactionalState;
use crate::step::{DispositionState, Step};

impl Words<'_> {
    pub(crate) fn step(&mut self) -> Result<Step, Unread> {
        match self.word()? {
            b"attach" => Ok(Step::AttachCoordinator {
                name: self.name()?,
                handle: self.handle()?,
            }),
            b"link" => Ok(Step::Attach(self.attach()?)),
            b"flow" => self.flow_step(),
            b"transfer" => Ok(Step::Transfer(self.transfer(|_| Ok(None))?)),
            b"post" => self.post(),
            b"disposition" => self.disposition_step(),
            b"retire" => self.retirement(),
            b"detach" => Ok(Step::Detach(self.detach()?)),
            b"control" => Ok(Step::Control {
                link: self.control_link()?,
                payload: self.payload()?,
            }),
            b"link-end" => Ok(Step::LinkEnd {
                link: self.control_link()?,
            }),
            b"end" => Ok(Step::End),
            b"remote-end" => Ok(Step::RemoteEnd),
            b"connection-stop" => Ok(Step::ConnectionStop),
            _ => Err(UNREAD),
        }
    }

    fn flow_step(&mut self) -> Result<Step, Unread> {
        match self.optional(Words::handle)? {
            None => Ok(Step::SessionFlow),
            Some(handle) => Ok(Step::LinkFlow {
                handle,
                link_credit: self.u32()?,
            }),
        }
    }

    fn post(&mut self) -> Result<Step, Unread> {
        let txn_id = self.txn_id()?;
        let transfer = self.transfer(|words| {
            let outcome = words.optional(Words::outcome)?;
            Ok(Some(TransactionalState { txn_id, outcome }))
        })?;
        Ok(Step::Transfer(transfer))
    }

    fn disposition_step(&mut self) -> Result<Step, Unread> {
        let disposition = self.disposition(|words| {
            let outcome = words.optional(Words::outcome)?;
            Ok(outcome.map(DispositionState::Outcome))
        })?;
        Ok(Step::Disposition(disposition))
    }

    fn retirement(&mut self) -> Result<Step, Unread> {
        let txn_id = self.txn_id()?;
        let disposition = self.disposition(|words| {
            let outcome = words.optional(Words::outcome)?;
            let state = TransactionalState { txn_id, outcome };
            Ok(Some(DispositionState::Transactional(state)))
        })?;
        Ok(Step::Disposition(disposition))
    }
}
