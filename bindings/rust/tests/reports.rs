//! The examples of the repository: each run of them, made through the typed steps of a session,
//! gives the report that is stored.

use std::collections::BTreeSet;
use std::fs;
use std::path::{Path, PathBuf};

use daxurbi::{
    Below, ControlMessage, Disposition, DispositionState, Refusal, Session, Step, StepError,
    Transfer,
};

fn examples() -> PathBuf {
    Path::new(env!("CARGO_MANIFEST_DIR")).join("../../examples")
}

/// The words of a run: `run`, perhaps the numbers of the calls that are refused, and the ids.
#[derive(Default)]
struct Words {
    refused: BTreeSet<usize>,
    ids: Vec<[u8; 16]>,
}

impl Words {
    /// None where the words are of another program, draw from a numbered seed, starve the layer
    /// below (here it starves before the first frame of a commit), or aren't in order.
    fn read(text: &str) -> Option<Words> {
        let mut lines = text.lines();
        if lines.next() != Some("run") {
            return None;
        }
        let mut words = Words::default();
        while let Some(line) = lines.next() {
            match line {
                "--refuse" => words.refused = numbers(lines.next()?),
                id => words
                    .ids
                    .push(u128::from_str_radix(id, 16).ok()?.to_be_bytes()),
            }
        }
        (!words.ids.is_empty()).then_some(words)
    }
}

fn numbers(list: &str) -> BTreeSet<usize> {
    list.split(',').map(|word| word.parse().unwrap()).collect()
}

/// The calls with a number that a step makes of the layer below.
enum Calls {
    None,
    Plain,
    Commit(usize),
}

/// A run: the session, how many calls the layer below had, and what is to be written.
struct Run {
    words: Words,
    session: Session,
    calls: usize,
    report: String,
    taken: String,
}

impl Run {
    fn new(words: Words) -> Self {
        let session = Session::with_ids(&words.ids).unwrap();
        Run {
            words,
            session,
            calls: 0,
            report: String::new(),
            taken: String::new(),
        }
    }

    fn calls_of(&mut self, step: &Step) -> Calls {
        match step {
            Step::Control { payload, .. } => self.calls_of_control(payload),
            Step::AttachCoordinator { .. } => Calls::None,
            Step::Transfer(Transfer { state: Some(_), .. }) => Calls::None,
            Step::Disposition(Disposition {
                state: Some(DispositionState::Transactional(_)),
                ..
            }) => Calls::None,
            _ => Calls::Plain,
        }
    }

    fn calls_of_control(&mut self, payload: &[u8]) -> Calls {
        match ControlMessage::from_payload(payload) {
            Some(ControlMessage::Discharge {
                txn_id: Some(txn_id),
                fail: None | Some(false),
            }) => {
                let work = self.session.pending(&txn_id).unwrap();
                Calls::Commit(work.map_or(0, |frames| frames.len()))
            }
            _ => Calls::None,
        }
    }

    /// What the layer below answers to the step.
    fn below(&mut self, step: &Step) -> Below {
        let calls = self.calls_of(step);
        let first = self.calls + 1;
        let is_refused = |call| self.words.refused.contains(&call);
        match calls {
            Calls::Plain if is_refused(first) => Refusal::IllegalState.into(),
            Calls::Commit(count) if (first..first + count).any(is_refused) => Below::Vetoes,
            _ => Below::Takes,
        }
    }

    /// Makes the step; whether the run goes on.
    fn step(&mut self, step: &Step) -> bool {
        let below = self.below(step);
        match self.session.step(step, below) {
            Ok(answer) => {
                self.report += &format!("{}\n", answer.reply);
                for frame in &answer.sent_back {
                    self.report += &format!("out {frame}\n");
                }
                for frame in &answer.handed {
                    self.taken += &format!("taken {frame}\n");
                }
                self.calls += answer.handed.len();
                true
            }
            Err(StepError::Stopped { stop, handed }) => {
                self.report += &format!("stop {stop}\nhanded {}\n", handed.len());
                false
            }
            Err(other) => panic!("{other}"),
        }
    }
}

fn run(words: Words, steps: &[Step]) -> String {
    let mut run = Run::new(words);
    if steps.iter().all(|step| run.step(step)) {
        run.report += "stop done\nhanded 0\n";
    }
    run.report + &run.taken
}

#[test]
fn each_example_gives_its_report() {
    let mut made = 0;
    for entry in fs::read_dir(examples()).unwrap() {
        let path = entry.unwrap().path();
        if path.extension() != Some("words".as_ref()) {
            continue;
        }
        let Some(words) = Words::read(&fs::read_to_string(&path).unwrap()) else {
            continue;
        };
        let lines = fs::read_to_string(path.with_extension("steps")).unwrap();
        let Ok(steps) = lines.lines().map(str::parse).collect::<Result<Vec<_>, _>>() else {
            continue;
        };
        let report = fs::read_to_string(path.with_extension("report")).unwrap();
        assert_eq!(run(words, &steps), report, "{}", path.display());
        made += 1;
    }
    assert!(made >= 10, "only {made} examples were run");
}
