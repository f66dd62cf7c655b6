//! The lines that are read here are those that the core reads.

use super::Words;
use crate::ffi::{self, answers, Slot};
use crate::frame::Frame;
use crate::step::Step;

/// Steps of each kind.
const LINES: [&str; 16] = [
    "attach c-._Z9 0",
    "link q 4294967295 sender",
    "flow 1 0",
    "flow -",
    "transfer 1 7 - 6869",
    "transfer 1 - true -",
    "post cafe 1 7 false accepted 6869",
    "post 00112233445566778899aabbccddeeff 1 7 - - AB",
    "disposition receiver 1 2 true released",
    "retire cafe sender 1 - false modified",
    "detach 1 true",
    "control 18446744073709551615 00537700533145",
    "link-end 0",
    "end",
    "remote-end",
    "connection-stop",
];

/// A session to which only lines are given that aren't to change it.
struct Core(Slot);

impl Core {
    fn open() -> Self {
        let mut slot = Slot::closed();
        let ids = [0; 16];
        // SAFETY: the slot is closed, and the ids are borrowed for the call.
        let answer = unsafe { ffi::daxurbi_open_with_ids(&mut slot, ids.as_ptr(), ids.len()) };
        assert_eq!(answer, answers::OK);
        Core(slot)
    }

    /// Whether the core reads the line as a step.
    fn reads(mut self, line: &[u8]) -> bool {
        // SAFETY: the slot is open, and the line is borrowed for the call.
        let answer = unsafe { ffi::daxurbi_step(&mut self.0, line.as_ptr(), line.len(), 0) };
        assert!([answers::OK, answers::STOPPED, answers::NOT_A_STEP].contains(&answer));
        answer != answers::NOT_A_STEP
    }
}

impl Drop for Core {
    fn drop(&mut self) {
        // SAFETY: the slot is open, and isn't used again.
        unsafe {
            ffi::daxurbi_close(&mut self.0);
        }
    }
}

/// Numbers that look like chance, the same in each run.
struct Chance(u64);

impl Chance {
    fn below(&mut self, limit: usize) -> usize {
        self.0 ^= self.0 << 13;
        self.0 ^= self.0 >> 7;
        self.0 ^= self.0 << 17;
        (self.0 % limit as u64) as usize
    }

    /// The line with one octet changed, added or taken away.
    fn changed(&mut self, line: &str) -> Vec<u8> {
        const OCTETS: &[u8] = b" -0919afAFgz_.\n\r\x00\xff";
        let mut octets = line.as_bytes().to_vec();
        let octet = OCTETS[self.below(OCTETS.len())];
        match self.below(3) {
            0 => octets.insert(self.below(line.len() + 1), octet),
            1 => octets[self.below(line.len())] = octet,
            _ => drop(octets.remove(self.below(line.len()))),
        }
        octets
    }
}

#[test]
fn a_line_is_read_here_where_the_core_reads_it() {
    let mut chance = Chance(44);
    for line in LINES {
        for _ in 0..1000 {
            let changed = chance.changed(line);
            assert_eq!(
                Words::read(&changed, Words::step).is_ok(),
                Core::open().reads(&changed),
                "{}",
                changed.escape_ascii()
            );
        }
    }
}

#[test]
fn a_step_is_written_as_it_is_read() {
    for line in LINES {
        let step: Step = line.parse().unwrap();
        assert_eq!(step.to_string(), line.replace("AB", "ab"));
    }
}

#[test]
fn a_frame_is_written_as_it_is_read() {
    for line in [
        "attach q 1 receiver",
        "flow - -",
        "flow 1 -",
        "flow 1 200",
        "transfer 1 7 - - 6869",
        "transfer 1 - true released -",
        "disposition receiver 7 - true txn:cafe:accepted",
        "disposition sender 7 9 false txn:cafe:-",
        "disposition sender 7 9 false declared:cafe",
        "disposition sender 7 9 false received",
        "detach 1 false",
    ] {
        let frame: Frame = line.parse().unwrap();
        assert_eq!(frame.to_string(), line);
    }
}

#[test]
fn other_texts_are_no_frames() {
    for line in [
        "",
        "attach q 1",
        "flow",
        "flow 01 -",
        "transfer 1 7 - - 686",
        "disposition receiver 7 - true txn:cafe",
        "disposition receiver 7 - true txn::accepted",
        "disposition receiver 7 - true declared:",
        "detach 1 false ",
    ] {
        assert!(line.parse::<Frame>().is_err(), "{line}");
    }
}
