//! One transaction with two messages for a queue, which commits, and one for which the queue has no
//! room, which is rolled back.

use std::error::Error;

use daxurbi::{
    Below, ControlLink, ControlMessage, Frame, Handle, Layer, Reply, Session, Step, TransactionId,
    TransactionalState, Transfer,
};

/// A queue with a greatest length.
struct Queue {
    messages: Vec<Vec<u8>>,
    limit: usize,
}

impl Layer for Queue {
    fn review_commit(&mut self, frames: &[Frame]) -> Below {
        if self.messages.len() + frames.len() <= self.limit {
            Below::Takes
        } else {
            Below::Vetoes
        }
    }

    fn review(&mut self, _step: &Step) -> Below {
        Below::Takes
    }

    fn take(&mut self, frame: &Frame) {
        if let Frame::Transfer(transfer) = frame {
            self.messages.push(transfer.payload.clone());
        }
    }
}

fn control(link: ControlLink, message: ControlMessage) -> Step {
    Step::Control {
        link,
        payload: message.to_payload(),
    }
}

fn post(txn_id: TransactionId, delivery_id: u32, text: &str) -> Step {
    Step::Transfer(Transfer {
        handle: Handle(1),
        delivery_id: Some(delivery_id),
        settled: None,
        state: Some(TransactionalState::under(txn_id)),
        payload: text.into(),
    })
}

fn main() -> Result<(), Box<dyn Error>> {
    let mut queue = Queue {
        messages: Vec::new(),
        limit: 3,
    };
    let mut session = Session::new()?;
    let attach = Step::AttachCoordinator {
        name: "c".parse()?,
        handle: Handle(0),
    };
    let Reply::Attached(link) = session.step_over(&attach, &mut queue)?.reply else {
        return Err("the link was refused".into());
    };
    for round in 0..2 {
        let declare = control(link, ControlMessage::Declare { global_id: None });
        let Reply::Declared(txn_id) = session.step_over(&declare, &mut queue)?.reply else {
            return Err("the declare was rejected".into());
        };
        session.step_over(&post(txn_id, 2 * round, "hello"), &mut queue)?;
        session.step_over(&post(txn_id, 2 * round + 1, "again"), &mut queue)?;
        let commit = control(link, ControlMessage::commit(txn_id));
        let answer = session.step_over(&commit, &mut queue)?;
        println!("{}: {} messages", answer.reply, queue.messages.len());
    }
    Ok(())
}
