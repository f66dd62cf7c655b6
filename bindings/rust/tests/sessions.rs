//! What sessions answer, beside the stored examples.

use std::thread;

use daxurbi::{
    Below, ControlLink, ControlMessage, DriveError, Frame, GlobalId, Handle, Layer, OpenError,
    Refusal, RejectText, Reply, Session, Step, StepError, Stop, TransactionError, TransactionId,
    TransactionalState, Transfer,
};

const ONE: [u8; 16] = 1u128.to_be_bytes();
const TWO: [u8; 16] = 2u128.to_be_bytes();

fn attach(name: &str) -> Step {
    Step::AttachCoordinator {
        name: name.parse().unwrap(),
        handle: Handle(0),
    }
}

fn opened(session: &mut Session) -> ControlLink {
    match session.step(&attach("c"), Below::Takes).unwrap().reply {
        Reply::Attached(link) => link,
        other => panic!("{other}"),
    }
}

fn control(link: ControlLink, message: ControlMessage) -> Step {
    Step::Control {
        link,
        payload: message.to_payload(),
    }
}

fn declare(link: ControlLink) -> Step {
    control(link, ControlMessage::Declare { global_id: None })
}

fn declared(session: &mut Session, link: ControlLink) -> TransactionId {
    match session.step(&declare(link), Below::Takes).unwrap().reply {
        Reply::Declared(txn_id) => txn_id,
        other => panic!("{other}"),
    }
}

fn transfer(state: Option<TransactionalState>, delivery_id: u32, payload: Vec<u8>) -> Step {
    Step::Transfer(Transfer {
        handle: Handle(1),
        delivery_id: Some(delivery_id),
        settled: None,
        state,
        payload,
    })
}

fn post(txn_id: TransactionId, delivery_id: u32) -> Step {
    transfer(
        Some(TransactionalState::under(txn_id)),
        delivery_id,
        b"hi".to_vec(),
    )
}

#[test]
fn a_veto_rolls_back() {
    let mut session = Session::with_ids(&[ONE]).unwrap();
    let link = opened(&mut session);
    let txn_id = declared(&mut session, link);
    session.step(&post(txn_id, 1), Below::Takes).unwrap();
    let commit = control(link, ControlMessage::commit(txn_id));
    let answer = session.step(&commit, Below::Vetoes).unwrap();
    let error = TransactionError::Rollback;
    assert_eq!(answer.reply, Reply::Rejected(error));
    assert_eq!(error.condition(), "amqp:transaction:rollback");
    assert!(answer.handed.is_empty());
    assert_eq!(session.pending(&txn_id), Ok(None));
}

#[test]
fn a_commit_that_is_starved_stops_and_hands_nothing() {
    let mut session = Session::with_ids(&[ONE]).unwrap();
    let link = opened(&mut session);
    let txn_id = declared(&mut session, link);
    session.step(&post(txn_id, 1), Below::Takes).unwrap();
    let commit = control(link, ControlMessage::commit(txn_id));
    let stop = Stop::Refused(Refusal::NoMemory);
    let handed = Vec::new();
    assert_eq!(
        session.step(&commit, Refusal::NoMemory.into()),
        Err(StepError::Stopped { stop, handed })
    );
}

const REFUSALS: [Refusal; 8] = [
    Refusal::UnattachedHandle,
    Refusal::LinkNameNotFound,
    Refusal::HandleInUse,
    Refusal::IllegalState,
    Refusal::TransferToSender,
    Refusal::ConnectionStopped,
    Refusal::RemoteEnded,
    Refusal::NoMemory,
];

/// What a layer below answers but for taking.
fn refusing() -> impl Iterator<Item = Below> {
    let refuses = REFUSALS.into_iter().map(Below::Refuses);
    refuses.chain([Below::Vetoes])
}

#[test]
fn a_post_with_a_disposition_is_refused_with_what_was_told() {
    for refusal in REFUSALS {
        let mut session = Session::with_ids(&[ONE]).unwrap();
        let link = opened(&mut session);
        let txn_id = declared(&mut session, link);
        let stop = Stop::Refused(refusal);
        let handed = Vec::new();
        assert_eq!(
            session.step(&post(txn_id, 1), refusal.into()),
            Err(StepError::Stopped { stop, handed })
        );
    }
}

#[test]
fn what_calls_nothing_below_is_not_refused() {
    for below in refusing() {
        let mut session = Session::with_ids(&[ONE]).unwrap();
        let link = opened(&mut session);
        let reply = |session: &mut Session, step: &Step| session.step(step, below).unwrap().reply;
        let Reply::Declared(txn_id) = reply(&mut session, &declare(link)) else {
            panic!("{below:?}");
        };
        let settled = Step::Transfer(Transfer {
            handle: Handle(1),
            delivery_id: Some(1),
            settled: Some(true),
            state: Some(TransactionalState::under(txn_id)),
            payload: Vec::new(),
        });
        assert_eq!(reply(&mut session, &settled), Reply::Ok);
        let rollback = control(link, ControlMessage::rollback(txn_id));
        assert_eq!(reply(&mut session, &rollback), Reply::Accepted);
        reply(&mut session, &declare(link));
        let empty = control(link, ControlMessage::commit(txn_id));
        assert_eq!(reply(&mut session, &empty), Reply::Accepted);
        assert_eq!(
            reply(&mut session, &Step::LinkEnd { link }),
            Reply::LinkEnded
        );
    }
}

#[test]
fn a_commit_that_is_refused_is_vetoed_but_for_memory() {
    for below in refusing().filter(|below| *below != Below::Refuses(Refusal::NoMemory)) {
        let mut session = Session::with_ids(&[ONE]).unwrap();
        let link = opened(&mut session);
        let txn_id = declared(&mut session, link);
        session.step(&post(txn_id, 1), Below::Takes).unwrap();
        let commit = control(link, ControlMessage::commit(txn_id));
        let answer = session.step(&commit, below).unwrap();
        let vetoed = Reply::Rejected(TransactionError::Rollback);
        assert_eq!((answer.reply, answer.handed.len()), (vetoed, 0));
    }
}

#[test]
fn each_refusal_is_told() {
    for refusal in REFUSALS {
        let mut session = Session::new().unwrap();
        let answer = session.step(&attach("c"), refusal.into()).unwrap();
        assert_eq!(answer.reply, Reply::AttachRefused(refusal));
        let stop = Stop::Refused(refusal);
        let handed = Vec::new();
        assert_eq!(
            session.step(&transfer(None, 1, Vec::new()), refusal.into()),
            Err(StepError::Stopped { stop, handed })
        );
    }
}

#[test]
fn a_stop_is_final_and_stays_readable() {
    let mut session = Session::with_ids(&[ONE]).unwrap();
    let dead = TransactionId::new(&TWO).unwrap();
    let stop = Stop::UnknownTxnId;
    let handed = Vec::new();
    assert_eq!(
        session.step(&post(dead, 1), Below::Takes),
        Err(StepError::Stopped { stop, handed })
    );
    let again = session.step(&Step::End, Below::Takes);
    assert_eq!(again, Err(StepError::StoppedBefore));
    assert_eq!(session.stop(), Ok((Stop::UnknownTxnId, Vec::new())));
    assert!(session.answer().is_err());
}

#[test]
fn declares_and_discharges_are_rejected() {
    let mut session = Session::with_ids(&[ONE]).unwrap();
    let link = opened(&mut session);
    let rejected = |session: &mut Session, message| {
        let step = control(link, message);
        session.step(&step, Below::Takes).unwrap().reply
    };
    let unknown = |text| Reply::Rejected(TransactionError::UnknownId(text));
    let global_id = Some(GlobalId::new(b"global").unwrap());
    assert_eq!(
        rejected(&mut session, ControlMessage::Declare { global_id }),
        unknown(RejectText::GlobalId)
    );
    let dead = TransactionId::new(&TWO).unwrap();
    assert_eq!(
        rejected(&mut session, ControlMessage::commit(dead)),
        unknown(RejectText::Absent)
    );
    declared(&mut session, link);
    assert_eq!(
        rejected(&mut session, ControlMessage::Declare { global_id: None }),
        unknown(RejectText::IdsRepeat)
    );
}

#[test]
fn links_end() {
    let mut session = Session::with_ids(&[ONE]).unwrap();
    let link = opened(&mut session);
    let end = Step::LinkEnd { link };
    let payload = b"hi".to_vec();
    let message = Step::Control { link, payload };
    let reply = |step: &Step| session.step(step, Below::Takes).unwrap().reply;
    let replies: Vec<Reply> = [&message, &message, &end].map(reply).into();
    assert_eq!(replies, [Reply::LinkClosed, Reply::NoLink, Reply::NoLink]);
}

#[test]
fn a_long_answer_is_read() {
    let mut session = Session::with_ids(&[ONE]).unwrap();
    let payload: Vec<u8> = (0..=255).cycle().take(100_000).collect();
    let step = transfer(None, 1, payload.clone());
    let answer = session.step(&step, Below::Takes).unwrap();
    match &answer.handed[..] {
        [Frame::Transfer(handed)] => assert_eq!(handed.payload, payload),
        other => panic!("{other:?}"),
    }
    assert_eq!(session.answer(), Ok(answer));
}

#[test]
fn payloads_are_read_as_they_are_written() {
    let octets = [7; 32];
    let txn_id = Some(TransactionId::new(&octets).unwrap());
    let messages = [
        ControlMessage::Declare { global_id: None },
        ControlMessage::Declare {
            global_id: GlobalId::new(&octets).ok(),
        },
        ControlMessage::Declare {
            global_id: GlobalId::new(&[]).ok(),
        },
        ControlMessage::Discharge { txn_id, fail: None },
        ControlMessage::Discharge {
            txn_id,
            fail: Some(true),
        },
        ControlMessage::Discharge {
            txn_id: None,
            fail: Some(false),
        },
    ];
    for message in messages {
        let payload = message.to_payload();
        assert_eq!(ControlMessage::from_payload(&payload), Some(message));
    }
    assert_eq!(ControlMessage::from_payload(&[]), None);
}

#[test]
fn lists_of_ids_have_bounds() {
    let count = Session::MAX_IDS + 1;
    let many = vec![ONE; count];
    assert_eq!(
        Session::with_ids(&many).unwrap_err(),
        OpenError::Ids { count }
    );
    let none = Session::with_ids(&[]).unwrap_err();
    assert_eq!(none, OpenError::Ids { count: 0 });
}

#[test]
fn a_session_moves_between_threads() {
    let mut session = Session::with_ids(&[ONE]).unwrap();
    let link = opened(&mut session);
    let served = thread::spawn(move || {
        let txn_id = declared(&mut session, link);
        session.step(&post(txn_id, 1), Below::Takes).unwrap();
        (session, txn_id)
    });
    let (mut session, txn_id) = served.join().unwrap();
    let work = session.pending(&txn_id).unwrap().unwrap();
    assert_eq!(work.len(), 1);
}

/// A layer with room for so many messages.
struct Room {
    left: usize,
    taken: Vec<Frame>,
}

impl Layer for Room {
    fn review_commit(&mut self, frames: &[Frame]) -> Below {
        if frames.len() <= self.left {
            Below::Takes
        } else {
            Below::Vetoes
        }
    }

    fn review(&mut self, step: &Step) -> Below {
        match step {
            Step::Transfer(transfer) if transfer.state.is_none() && self.left == 0 => {
                Refusal::IllegalState.into()
            }
            _ => Below::Takes,
        }
    }

    fn take(&mut self, frame: &Frame) {
        self.left -= 1;
        self.taken.push(frame.clone());
    }
}

#[test]
fn a_layer_is_asked_and_handed() {
    let mut session = Session::with_ids(&[ONE, TWO]).unwrap();
    let mut room = Room {
        left: 2,
        taken: Vec::new(),
    };
    let link = opened(&mut session);
    let mut replies = Vec::new();
    for _ in 0..2 {
        let txn_id = declared(&mut session, link);
        session.step_over(&post(txn_id, 1), &mut room).unwrap();
        session.step_over(&post(txn_id, 2), &mut room).unwrap();
        let commit = control(link, ControlMessage::commit(txn_id));
        replies.push(session.step_over(&commit, &mut room).unwrap().reply);
    }
    let vetoed = Reply::Rejected(TransactionError::Rollback);
    assert_eq!(replies, [Reply::Accepted, vetoed]);
    let texts: Vec<String> = room.taken.iter().map(Frame::to_string).collect();
    assert_eq!(texts, ["transfer 1 1 - - 6869", "transfer 1 2 - - 6869"]);
    let refused = session.step_over(&transfer(None, 3, Vec::new()), &mut room);
    let stop = Stop::Refused(Refusal::IllegalState);
    let handed = Vec::new();
    assert_eq!(
        refused,
        Err(DriveError::Step(StepError::Stopped { stop, handed }))
    );
}

#[test]
fn sessions_run_beside_each_other() {
    let serve = || {
        let mut session = Session::with_ids(&[ONE]).unwrap();
        let link = opened(&mut session);
        let handed = (0..500).map(|number| {
            let txn_id = declared(&mut session, link);
            session.step(&post(txn_id, number), Below::Takes).unwrap();
            let commit = control(link, ControlMessage::commit(txn_id));
            session.step(&commit, Below::Takes).unwrap().handed.len()
        });
        handed.sum::<usize>()
    };
    let served: Vec<usize> = thread::scope(|scope| {
        let threads: Vec<_> = (0..4).map(|_| scope.spawn(serve)).collect();
        threads.into_iter().map(|it| it.join().unwrap()).collect()
    });
    assert_eq!(served, [500; 4]);
}
