//! `compare run`, `compare one` and `compare total`; the script beside this crate calls them.
use compare::run::{run, Plan, Readers, State};
use compare::{run::smallest, servant::Servant, show, trial::Trial};
use std::{env, fs, process::exit};

fn main() {
    let words: Vec<String> = env::args().skip(1).collect();
    let rest: Vec<&str> = words.iter().skip(1).map(String::as_str).collect();
    match words.first().map(String::as_str) {
        Some("run") => run_set(&rest),
        Some("one") => one(number(rest[0]), number(rest[1])),
        Some("total") => total(&rest),
        _ => fail("the commands are run, one, total"),
    }
}

/// The reader at hand, and the archive by the servant that COMPARE_SERVANT names.
fn readers() -> Readers {
    let archive = env::var("COMPARE_SERVANT").ok().map(|command| Box::new(Servant::start(&command)) as Box<_>);
    Readers { linked: linked(), archive }
}

#[cfg(linked)]
fn linked() -> Box<dyn compare::reader::Reader + Send> {
    Box::new(compare::reader::Linked::default())
}

#[cfg(not(linked))]
fn linked() -> Box<dyn compare::reader::Reader + Send> {
    fail("built without OWLGANTRY_LIB, so that there is no reader to compare")
}

/// `run NAME CLASSES SEED STREAMS THREADS STATE`
fn run_set(words: &[&str]) {
    let &[name, classes, seed, streams, threads, state] = words else { fail("run wants six words") };
    let plan = Plan {
        name: name.into(),
        seed: number(seed),
        streams: number(streams),
        classes: classes.split(',').map(number).collect(),
        state: state.into(),
        build: build(),
    };
    let mut workers: Vec<Readers> = (0..number(threads).max(1)).map(|_| readers()).collect();
    let state = run(&plan, &mut workers);
    exit(i32::from(state.differences > 0));
}

/// A checksum of this program, which has the oracle and the linked reader inside, and of the servant.
fn build() -> u64 {
    let own = env::current_exe().expect("this program has a place");
    let servant = env::var("COMPARE_SERVANT").unwrap_or_default();
    let files = [own.to_str().unwrap_or_default(), servant.split(' ').next_back().unwrap_or_default()];
    let bytes = files.iter().flat_map(|file| fs::read(file).unwrap_or_default());
    bytes.fold(0xcbf2_9ce4_8422_2325, |sum, byte| (sum ^ u64::from(byte)).wrapping_mul(0x100_0000_01b3))
}

/// One stream again, by each reader.
fn one(seed: u64, number: u64) {
    let trial = Trial::new(seed, number);
    println!("seed {seed} stream {number}\n{}", show::trial(&trial));
    let readers = readers();
    let asked = [Some(("linked", readers.linked)), readers.archive.map(|archive| ("archive", archive))];
    let mut failed = false;
    for (name, mut reader) in asked.into_iter().flatten() {
        let found = compare::run::difference(&trial, reader.as_mut());
        failed |= found.is_some();
        match found {
            None => println!("{name}: no difference"),
            Some(difference) => {
                print!("{name}:\n{}{}", show::difference(&difference), smallest(&trial, reader.as_mut()))
            }
        }
    }
    exit(i32::from(failed));
}

/// The sum of all states.
fn total(files: &[&str]) {
    let mut sum = State::default();
    for file in files {
        let text = fs::read_to_string(file).unwrap_or_else(|_| fail(&format!("{file} can't be read")));
        let state = State::parse(&text).unwrap_or_else(|| fail(&format!("{file} is no state")));
        sum.add(&state);
    }
    let seconds = sum.milliseconds / 1_000;
    print!("{}", sum.text().lines().skip(1).map(|line| format!("{line}\n")).collect::<String>());
    println!("seconds {seconds}");
    exit(i32::from(sum.differences > 0));
}

fn number(word: &str) -> u64 {
    word.parse().unwrap_or_else(|_| fail(&format!("{word} is no number")))
}

fn fail(what: &str) -> ! {
    eprintln!("compare: {what}");
    exit(2)
}
