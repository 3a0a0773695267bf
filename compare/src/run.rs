//! Many trials in order, by one reader or two, with a progress line and a checkpoint from which a run resumes.
use crate::expected::Expected;
use crate::judge::judge;
use crate::reader::Reader;
use crate::recorded::Recorded;
use crate::same::Difference;
use crate::show;
use crate::shrink::shrink;
use crate::tally::{Tally, COUNTED};
use crate::trial::Trial;
use std::panic::{catch_unwind, AssertUnwindSafe};
use std::time::{Duration, Instant};
use std::{fs, thread};

/// Streams that belong to one of eight classes; a set of limits has some of the classes.
pub const CLASSES: u64 = 8;
/// One in so many streams goes through the archive as well.
const THROUGH_ARCHIVE: u64 = 50;
/// So many streams are handed out at once, and a checkpoint stands between two such blocks.
const BLOCK: u64 = 4_096;
const PROGRESS: Duration = Duration::from_secs(5);
/// After so many differences a run is aborted.
const ENOUGH: u64 = 10;

pub struct Plan {
    pub name: String,
    pub seed: u64,
    pub streams: u64,
    pub classes: Vec<u64>,
    pub state: String,
    /// Tells this build of both readers from others, whose states do not count.
    pub build: u64,
}

/// Whoever is asked: the reader at hand, and the archive where it is another.
pub struct Readers {
    pub linked: Box<dyn Reader + Send>,
    pub archive: Option<Box<dyn Reader + Send>>,
}

#[derive(Clone, Copy, Default)]
pub struct State {
    /// The next number.
    pub next: u64,
    pub done: u64,
    pub through_archive: u64,
    pub differences: u64,
    pub milliseconds: u64,
    pub tally: Tally,
}

const NAMES: [&str; 5] = ["next", "streams", "through-archive", "differences", "milliseconds"];

impl State {
    fn numbers(&mut self) -> Vec<&mut u64> {
        let Self { next, done, through_archive, differences, milliseconds, tally } = self;
        [next, done, through_archive, differences, milliseconds].into_iter().chain(&mut tally.0).collect()
    }

    pub fn add(&mut self, other: &Self) {
        let mut other = *other;
        for (mine, theirs) in self.numbers().into_iter().zip(other.numbers()) {
            *mine = mine.saturating_add(*theirs);
        }
    }

    pub fn text(mut self) -> String {
        NAMES.iter().chain(&COUNTED).zip(self.numbers()).map(|(name, number)| format!("{name} {number}\n")).collect()
    }

    pub fn parse(text: &str) -> Option<Self> {
        let mut state = Self::default();
        let mut lines = text.lines().skip(1);
        for (name, number) in NAMES.iter().chain(&COUNTED).zip(state.numbers()) {
            *number = lines.next()?.strip_prefix(name)?.trim().parse().ok()?;
        }
        Some(state)
    }
}

impl Plan {
    fn head(&self) -> String {
        format!("seed {} streams {} build {:016x}", self.seed, self.streams, self.build)
    }

    /// Where an earlier run of the same streams by the same readers stands.
    fn resumed(&self) -> State {
        let text = fs::read_to_string(&self.state).unwrap_or_default();
        if text.lines().next() != Some(&self.head()) {
            return State::default();
        }
        State::parse(&text).unwrap_or_default()
    }

    fn keep(&self, state: State) {
        let text = format!("{}\n{}", self.head(), state.text());
        let draft = format!("{}.new", self.state);
        fs::write(&draft, text).and_then(|()| fs::rename(&draft, &self.state)).expect("the state can be kept");
    }

    fn has(&self, number: u64) -> bool {
        self.classes.contains(&(number % CLASSES))
    }

    /// Whether the stream goes through the archive too: all classes have their share.
    fn through_archive(&self, number: u64) -> bool {
        (number / CLASSES).is_multiple_of(THROUGH_ARCHIVE)
    }
}

/// Runs what is left of the plan; one worker for each pair of readers.
pub fn run(plan: &Plan, workers: &mut [Readers]) -> State {
    let mut state = plan.resumed();
    if state.next > 0 {
        eprintln!("{}: goes on at stream {} with {} done", plan.name, state.next, state.done);
    }
    let (earlier, start) = (state.milliseconds, Instant::now());
    let mut shown = Instant::now();
    while state.next < plan.streams && state.differences < ENOUGH {
        let upto = (state.next + BLOCK * CLASSES).min(plan.streams);
        let numbers: Vec<u64> = (state.next..upto).filter(|&number| plan.has(number)).collect();
        for part in block(plan, workers, &numbers) {
            state.add(&part);
        }
        state.next = upto;
        state.milliseconds = earlier + start.elapsed().as_millis() as u64;
        if shown.elapsed() >= PROGRESS || upto == plan.streams {
            shown = Instant::now();
            plan.keep(state);
            progress(plan, &state);
        }
    }
    plan.keep(state);
    state
}

fn progress(plan: &Plan, state: &State) {
    let share = plan.streams * plan.classes.len() as u64 / CLASSES;
    let pace = state.done * 1_000 / state.milliseconds.max(1);
    let of = |name| COUNTED.iter().position(|other| *other == name).map_or(0, |at| state.tally.0[at]);
    eprintln!(
        "{}: {} of {share} streams, {} through the archive too, {pace} a second, {} calls, {} stops, {} differences",
        plan.name,
        state.done,
        state.through_archive,
        of("calls"),
        of("stops"),
        state.differences
    );
}

fn block(plan: &Plan, workers: &mut [Readers], numbers: &[u64]) -> Vec<State> {
    let count = workers.len();
    thread::scope(|scope| {
        let running: Vec<_> = workers
            .iter_mut()
            .enumerate()
            .map(|(place, readers)| {
                scope.spawn(move || {
                    let mut state = State::default();
                    for &number in numbers.iter().skip(place).step_by(count) {
                        one(plan, readers, number, &mut state);
                    }
                    state
                })
            })
            .collect();
        running.into_iter().map(|worker| worker.join().expect("a worker comes to its end")).collect()
    })
}

fn one(plan: &Plan, readers: &mut Readers, number: u64, state: &mut State) {
    let trial = Trial::new(plan.seed, number);
    let archive = readers.archive.as_deref_mut().filter(|_| plan.through_archive(number));
    state.done += 1;
    state.through_archive += u64::from(archive.is_some());
    let mut asked: Vec<(&str, &mut dyn Reader)> = vec![("linked", readers.linked.as_mut())];
    asked.extend(archive.map(|archive| ("archive", archive as &mut dyn Reader)));
    for (name, result) in answers(&trial, &mut asked) {
        match result {
            Ok(tally) if name == "linked" => state.tally.add(&tally),
            Ok(_) => {}
            Err(difference) => {
                state.differences += 1;
                let reader = asked.iter_mut().find(|(other, _)| *other == name).expect("it was asked");
                println!("seed {} stream {number}, {name}: a difference", plan.seed);
                print!("{}", show::difference(&difference));
                print!("{}", smallest(&trial, reader.1));
            }
        }
    }
}

/// One answer of the oracle for all readers.
fn answers<'a>(trial: &Trial, asked: &mut [(&'a str, &mut dyn Reader)]) -> Vec<(&'a str, Result<Tally, Difference>)> {
    let expected = match catch_unwind(|| Expected::of(trial)) {
        Ok(expected) => expected,
        Err(_) => return vec![(asked[0].0, Err(oracle_failed()))],
    };
    asked.iter_mut().map(|(name, reader)| (*name, judge(trial, &expected, *reader))).collect()
}

fn oracle_failed() -> Difference {
    Difference { what: "the oracle".into(), ours: "an answer".into(), theirs: "a panic".into() }
}

/// The difference between the oracle and one reader, where there is one.
pub fn difference(trial: &Trial, reader: &mut dyn Reader) -> Option<Difference> {
    let judged = catch_unwind(AssertUnwindSafe(|| judge(trial, &Expected::of(trial), reader)));
    judged.unwrap_or_else(|_| Err(oracle_failed())).err()
}

/// The smallest trial that differs, how it does, and both answers.
pub fn smallest(trial: &Trial, reader: &mut dyn Reader) -> String {
    let found = shrink(trial, &mut |candidate| difference(candidate, reader).is_some());
    let mut recorded = Recorded { inner: reader, lines: String::new() };
    let how = difference(&found, &mut recorded).map_or("  not seen again\n".into(), |how| show::difference(&how));
    let theirs = catch_unwind(|| show::answer(&Expected::of(&found).answer)).unwrap_or("a panic".into());
    format!("smallest:\n{}{how}  ours:\n{}  the Rust:\n    {theirs}\n", show::trial(&found), recorded.lines)
}
