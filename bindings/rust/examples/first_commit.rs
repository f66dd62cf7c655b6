//! A transaction with one message for a queue of at most 100 messages.

use std::error::Error;

use daxurbi::{
    Below, ControlMessage, Frame, Handle, Reply, Session, Step, TransactionalState, Transfer,
};

fn main() -> Result<(), Box<dyn Error>> {
    let mut queue: Vec<Frame> = Vec::new();
    let mut session = Session::new()?;

    let (name, handle) = ("c".parse()?, Handle(0));
    let attach = Step::AttachCoordinator { name, handle };
    let Reply::Attached(link) = session.step(&attach, Below::Takes)?.reply else {
        return Err("the link was refused".into());
    };
    let payload = ControlMessage::Declare { global_id: None }.to_payload();
    let declare = Step::Control { link, payload };
    let Reply::Declared(txn_id) = session.step(&declare, Below::Takes)?.reply else {
        return Err("the declare was rejected".into());
    };
    let post = Step::Transfer(Transfer {
        handle: Handle(1),
        delivery_id: Some(7),
        settled: None,
        state: Some(TransactionalState::under(txn_id)),
        payload: b"hi".to_vec(),
    });

    let payload = ControlMessage::commit(txn_id).to_payload();
    let commit = Step::Control { link, payload };

    session.step(&post, Below::Takes)?;
    let work = session.pending(&txn_id)?.unwrap_or_default();
    let fits = queue.len() + work.len() <= 100;
    let below = if fits { Below::Takes } else { Below::Vetoes };
    let answer = session.step(&commit, below)?;
    queue.extend(answer.handed);
    println!("{} {}", answer.reply, queue[0]);
    Ok(())
}
