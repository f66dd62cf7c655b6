//! Many steps through one session: how long they take, and how much memory the process has then.
//!
//! `many_steps N` drives N transactions, and writes a line for each tenth of them. `many_steps N
//! lines FIRST` writes the lines of their steps instead, where they are numbered from FIRST.
//!
//! A transaction is a declare, three settled posts of four octets, and a commit.

use std::env;
use std::error::Error;
use std::fs;
use std::io::{self, Write};
use std::ops::Range;
use std::time::Instant;

use daxurbi::{
    Below, ControlLink, ControlMessage, Handle, Reply, Session, Step, TransactionId,
    TransactionalState, Transfer,
};

/// The id of each transaction: one is over before the next is declared.
const ID: [u8; 16] = 1u128.to_be_bytes();
const LINK: ControlLink = ControlLink(0);

fn attach() -> Result<Step, Box<dyn Error>> {
    Ok(Step::AttachCoordinator {
        name: "c".parse()?,
        handle: Handle(0),
    })
}

/// The steps of a transaction.
fn steps(number: u32, txn_id: TransactionId) -> [Step; 5] {
    let declare = ControlMessage::Declare { global_id: None };
    let commit = ControlMessage::Discharge {
        txn_id: Some(txn_id),
        fail: None,
    };
    let control = |message: ControlMessage| Step::Control {
        link: LINK,
        payload: message.to_payload(),
    };
    let post = |place: u32| {
        Step::Transfer(Transfer {
            handle: Handle(1),
            delivery_id: Some(number.wrapping_mul(3).wrapping_add(place)),
            settled: Some(true),
            state: Some(TransactionalState::under(txn_id)),
            payload: number.to_be_bytes().to_vec(),
        })
    };
    [control(declare), post(0), post(1), post(2), control(commit)]
}

fn write_lines(numbers: Range<u32>, txn_id: TransactionId) -> Result<(), Box<dyn Error>> {
    let mut out = io::BufWriter::new(io::stdout().lock());
    writeln!(out, "{}", attach()?)?;
    for number in numbers {
        for step in steps(number, txn_id) {
            writeln!(out, "{step}")?;
        }
    }
    Ok(out.flush()?)
}

fn drive(count: u32, txn_id: TransactionId) -> Result<(), Box<dyn Error>> {
    let mut session = Session::with_ids(&[ID])?;
    let began = Instant::now();
    let mut made = 1;
    let mut handed = 0;
    session.step(&attach()?, Below::Takes)?;
    for number in 0..count {
        for step in steps(number, txn_id) {
            let answer = session.step(&step, Below::Takes)?;
            assert!(!matches!(answer.reply, Reply::Rejected(_)));
            made += 1;
            handed += answer.handed.len();
        }
        if (number + 1) % (count / 10).max(1) == 0 {
            let seconds = began.elapsed().as_secs_f64();
            let memory = resident()?;
            println!("{made} steps, {handed} handed: {seconds:.3} s, {memory} KiB");
        }
    }
    Ok(())
}

/// The memory that the process has, in KiB.
fn resident() -> Result<u64, Box<dyn Error>> {
    let status = fs::read_to_string("/proc/self/status")?;
    let line = status.lines().find_map(|line| line.strip_prefix("VmRSS:"));
    let words = line.and_then(|line| line.trim().strip_suffix(" kB"));
    Ok(words.ok_or("no resident size")?.parse()?)
}

fn main() -> Result<(), Box<dyn Error>> {
    let mut words = env::args().skip(1);
    let count = words.next().ok_or("how many transactions?")?.parse()?;
    let txn_id = TransactionId::new(&ID)?;
    match words.next().as_deref() {
        None => drive(count, txn_id),
        Some("lines") => {
            let first: u32 = words.next().ok_or("from which?")?.parse()?;
            write_lines(first..first + count, txn_id)
        }
        Some(other) => Err(format!("what is {other}?").into()),
    }
}
