//! Mutation testing: that the comparison can fail, at each thing it compares, and that shrinking works.
use crate::expected::Expected;
use crate::judge::judge;
use crate::model::{Bounds, Effect, Model};
use crate::reader::{Memory, Opening, Reader, Registers, FRAME, GUARD, MARK, SESSION};
use crate::run::{difference, smallest};
use crate::shrink::shrink;
use crate::stand_in::StandIn;
use crate::tally::{Tally, COUNTED};
use crate::trial::Trial;
use oracle::run::Entry;

const SEED: u64 = 7;

/// One thing that a reader gets wrong.
#[derive(Clone, Copy, PartialEq, Debug)]
enum Damage {
    Nothing,
    Opening,
    Feed(usize),
    FeedNumber,
    Finish(usize),
    FinishNumber,
    Read(usize),
    ReadNumber,
    /// An extent of 1 x 1 where nothing was painted.
    ExtentNotEmpty,
    /// One that counts a band's six rows.
    ExtentInBands,
    /// One that counts what has only grown.
    ExtentOfSize,
    /// A count of the registers that are marked in the end.
    DefinedOfMarked,
    /// A declared size that is the visible one.
    DeclaredOfSize,
    /// A side that is declared as 1 where none is.
    DeclaredOfOne,
    /// Width and height exchanged.
    DeclaredTurned,
    /// A count of the values that were held, and not of their definitions.
    HeldOfValues,
    /// One that counts a register once.
    HeldOfRegisters,
    /// One that has 100 outside.
    HeldOfHundred,
    /// One that counts a hue.
    HeldOfHue,
    /// One that leaves greys out.
    HeldOfColours,
    /// One that leaves the last value out.
    HeldOfTwo,
    /// One that leaves out what the finish carries out.
    HeldOfEnded,
    Palette,
    /// A picture that marks one register too many.
    MarkTooMany,
    /// One that leaves only the marks of its own.
    MarksOfBefore,
    /// One that marks nothing.
    MarksOfPicture,
    /// One that says in its owner's palette what it has defined.
    Frame,
    /// A refusal that tidies its owner's numbers up.
    Tidied,
    /// An opening that leaves what is above the marks.
    Noise,
    Copy,
    CopyNumber,
    ShortCopy,
    Standard,
    Session,
    Behind,
    Pixel,
    Outside,
    Before,
    After,
    StopsEarly,
    NoStop,
    /// A picture that is right in the end alone.
    Between,
    Thirteen,
    Twelve,
}

struct Damaged {
    inner: StandIn,
    damage: Damage,
    memory: Memory,
    /// The palette at the opening.
    owner: Registers,
    ended: bool,
    committed: bool,
}

impl Damaged {
    fn new(damage: Damage) -> Self {
        let (inner, memory) = (StandIn::new(), Memory::empty());
        Self { inner, damage, memory, owner: [0; 256], ended: false, committed: false }
    }

    fn is(&self, damage: Damage) -> bool {
        self.damage == damage
    }

    /// Puts a wrong extent, count or declared size into the report of a picture, of which so many definitions had ended before.
    fn stretch(&mut self, number: u64, report: &mut [u64], ended: usize) {
        use Damage::*;
        match self.damage {
            HeldOfValues | HeldOfRegisters | HeldOfHundred | HeldOfHue | HeldOfColours | HeldOfTwo if number == 0 => {
                report[10] = miscounted(self.damage, self.inner.definitions());
            }
            HeldOfEnded if number == 0 => report[10] = miscounted(self.damage, &self.inner.definitions()[..ended]),
            Damage::DefinedOfMarked if number == 0 => {
                let marked = self.inner.memory().palette.iter().filter(|&&number| number & MARK != 0);
                report[7] = marked.count() as u64;
            }
            Damage::ExtentNotEmpty if number == 0 => report[2..4].iter_mut().for_each(|side| *side = (*side).max(1)),
            Damage::ExtentInBands => report[3] = report[3].next_multiple_of(6),
            Damage::ExtentOfSize => report.copy_within(..2, 2),
            Damage::DeclaredOfSize => report.copy_within(..2, 8),
            Damage::DeclaredOfOne if number == 0 => report[8..10].iter_mut().for_each(|side| *side = (*side).max(1)),
            Damage::DeclaredTurned => report.swap(8, 9),
            _ => {}
        }
    }
}

/// How many of these definitions a reader with such a damage takes for held.
fn miscounted(damage: Damage, definitions: &[[u64; 5]]) -> u64 {
    let mut registers = std::collections::HashSet::new();
    let mut count = 0;
    for &[register, space, a, b, c] in definitions {
        let hue = space == 1 && damage != Damage::HeldOfHue;
        let values = [if hue { 0 } else { a }, b, if damage == Damage::HeldOfTwo { 0 } else { c }];
        let most = if damage == Damage::HeldOfHundred { 99 } else { 100 };
        let outside = values.iter().filter(|&&value| value > most).count() as u64;
        count += match damage {
            Damage::HeldOfValues => outside,
            Damage::HeldOfRegisters => u64::from(outside > 0 && registers.insert(register.min(255))),
            Damage::HeldOfColours if space == 1 && c == 0 => 0,
            _ => outside.min(1),
        };
    }
    count
}

impl Reader for Damaged {
    fn open(&mut self, opening: &Opening) -> u64 {
        (self.ended, self.committed) = (false, false);
        self.owner = opening.palette;
        self.inner.open(opening) + if self.is(Damage::Opening) { 11 } else { 0 }
    }

    fn feed(&mut self, bytes: &[u8], allowance: usize, short: usize) -> (u64, [u64; 4]) {
        let short = if self.is(Damage::Twelve) { 0 } else { short };
        let allowance = if self.is(Damage::Thirteen) { usize::MAX } else { allowance };
        if self.is(Damage::StopsEarly) && bytes.len() > 1 {
            let (number, [how, consumed, ink, byte]) = self.inner.feed(&bytes[..1], allowance, short);
            return (number, if number == 0 && how == 0 { [1, consumed, ink, 0] } else { [how, consumed, ink, byte] });
        }
        let (number, mut report) = self.inner.feed(bytes, allowance, short);
        if self.is(Damage::NoStop) && report[0] == 1 {
            report[0] = 0;
        }
        if let Damage::Feed(place) = self.damage {
            report[place] += 1;
        }
        (if self.is(Damage::FeedNumber) && number != 0 { number + 1 } else { number }, report)
    }

    fn finish(&mut self) -> (u64, [u64; 11]) {
        self.ended = true;
        let ended = self.inner.definitions().len();
        let (number, mut report) = self.inner.finish();
        self.committed = number == 0;
        self.stretch(number, &mut report, ended);
        if let Damage::Finish(place) = self.damage {
            report[place] += 1;
        }
        (if self.is(Damage::FinishNumber) && number != 0 { number + 1 } else { number }, report)
    }

    fn read(&mut self, opening: &Opening, bytes: &[u8]) -> (u64, [u64; 13]) {
        self.owner = opening.palette;
        let (number, mut report) = self.inner.read(opening, bytes);
        self.committed = number == 0;
        self.stretch(number, &mut report, self.inner.definitions().len());
        if let Damage::Read(place) = self.damage {
            report[place] += 1;
        }
        (if self.is(Damage::ReadNumber) && number != 0 { number + 1 } else { number }, report)
    }

    fn copy(&mut self, size: [usize; 2], out: Vec<u8>) -> (u64, Vec<u8>) {
        let (number, mut out) = self.inner.copy(size, out);
        match (self.damage, number) {
            (Damage::CopyNumber, _) => return (0, out),
            (Damage::Copy, 0) => *out.last_mut().expect("a picture has a pixel") ^= 1,
            (Damage::ShortCopy, 14) => out[0] ^= 1,
            _ => {}
        }
        (number, out)
    }

    fn standard_palette(&mut self) -> Registers {
        let mut out = self.inner.standard_palette();
        out[7] ^= u32::from(self.is(Damage::Standard));
        out
    }

    fn memory(&mut self) -> &Memory {
        self.memory = self.inner.memory().clone();
        let end = self.memory.buffer.len();
        let owner = self.owner;
        let numbers = self.memory.palette.iter_mut().zip(owner);
        match self.damage {
            Damage::MarkTooMany if self.committed => self.memory.palette[77] |= MARK,
            Damage::MarksOfBefore if self.committed => {
                numbers.for_each(|(number, before)| *number -= *number & before & MARK);
            }
            Damage::MarksOfPicture if self.committed => {
                numbers.for_each(|(number, before)| *number = *number % MARK | before & MARK);
            }
            Damage::Frame if self.committed => {
                numbers.for_each(|(number, before)| *number |= FRAME * u32::from(*number & !before & MARK != 0));
            }
            Damage::Tidied if !self.committed => numbers.for_each(|(number, _)| *number %= FRAME),
            Damage::Noise => self.memory.registers[5] = owner[5],
            Damage::Palette => self.memory.palette[255] ^= 1,
            Damage::Session => self.memory.session[SESSION - 1] ^= 1,
            Damage::Behind => self.memory.session[SESSION] ^= 1,
            Damage::Between if !self.ended => self.memory.buffer[GUARD] ^= 1,
            Damage::Pixel => self.memory.buffer[GUARD] ^= 1,
            Damage::Outside => self.memory.buffer[end - GUARD - 1] ^= 1,
            Damage::Before => self.memory.buffer[GUARD - 1] ^= 1,
            Damage::After => self.memory.buffer[end - GUARD] ^= 1,
            _ => {}
        }
        &self.memory
    }
}

/// What the first of many trials to differ says, if one does.
fn found(damage: Damage) -> Option<String> {
    let mut reader = Damaged::new(damage);
    (0..3_000).find_map(|number| difference(&Trial::new(SEED, number), &mut reader)).map(|found| found.what)
}

#[test]
fn a_sound_reader_has_no_difference() {
    assert_eq!(found(Damage::Nothing), None);
}

#[test]
fn every_damage_is_noticed() {
    use Damage::*;
    let each = [
        Opening,
        Feed(0),
        Feed(1),
        Feed(2),
        Feed(3),
        FeedNumber,
        Finish(0),
        Finish(1),
        Finish(2),
        Finish(3),
        Finish(4),
        Finish(5),
        Finish(6),
        Finish(7),
        Finish(8),
        Finish(9),
        Finish(10),
        FinishNumber,
        Read(0),
        Read(1),
        Read(2),
        Read(3),
        Read(4),
        Read(5),
        Read(6),
        Read(7),
        Read(8),
        Read(9),
        Read(10),
        Read(11),
        Read(12),
        ReadNumber,
        ExtentNotEmpty,
        ExtentInBands,
        ExtentOfSize,
        DefinedOfMarked,
        DeclaredOfSize,
        DeclaredOfOne,
        DeclaredTurned,
        HeldOfValues,
        HeldOfRegisters,
        HeldOfHundred,
        HeldOfHue,
        HeldOfColours,
        HeldOfTwo,
        HeldOfEnded,
        Palette,
        MarkTooMany,
        MarksOfBefore,
        MarksOfPicture,
        Frame,
        Tidied,
        Noise,
        Copy,
        CopyNumber,
        ShortCopy,
        Standard,
        Session,
        Behind,
        Pixel,
        Outside,
        Before,
        After,
        StopsEarly,
        Thirteen,
        Twelve,
    ];
    for damage in each {
        assert!(found(damage).is_some(), "{damage:?} goes unnoticed");
    }
}

/// Under the crate's own limits stops are too rare for a few trials.
#[test]
fn a_missing_stop_is_noticed_under_small_limits() {
    if oracle::LIMITS[0] < 100 {
        assert!(found(Damage::NoStop).is_some());
    }
}

#[test]
fn a_wrong_canvas_between_two_calls_is_noticed() {
    let mut reader = Damaged::new(Damage::Between);
    let finished = |trial: &Trial| !trial.abort && trial.entry != Entry::OneShot;
    let mut trials = (0..3_000).map(|number| Trial::new(SEED, number)).filter(finished);
    assert!(trials.any(|trial| difference(&trial, &mut reader).is_some()));
}

/// Refusal 7 is not among them: each canvas has room for its picture.
#[test]
fn every_kind_of_outcome_comes_up() {
    let mut reader = StandIn::new();
    let mut tally = Tally::default();
    for number in 0..20_000 {
        let trial = Trial::new(SEED, number);
        tally.add(&judge(&trial, &Expected::of(&trial), &mut reader).unwrap_or_else(|found| panic!("{}", found.what)));
    }
    let [w, h, _, m] = oracle::LIMITS;
    for (name, count) in COUNTED.iter().zip(tally.0) {
        println!("{name} {count}");
        let can_be = match *name {
            "refused-6" => w * h > m,
            "refused-7" => false,
            "stops" => w < 100,
            _ => true,
        };
        assert!(count > 0 || !can_be, "{name} does not come up");
        assert!(count == 0 || can_be || *name == "stops", "{name} comes up");
    }
}

#[test]
fn each_field_is_named() {
    let names = [
        (Damage::Opening, "opening"),
        (Damage::Feed(0), "status of call 1"),
        (Damage::Feed(1), "bytes consumed of call 1"),
        (Damage::Feed(2), "ink of call 1"),
        (Damage::Feed(3), "ending byte of call 1"),
    ];
    let plain = (0..).map(|number| Trial::new(SEED, number)).find(|trial| !trial.poked && trial.entry == Entry::Dcs);
    let plain = plain.expect("there is one");
    for (damage, name) in names {
        assert_eq!(difference(&plain, &mut Damaged::new(damage)).map(|found| found.what).as_deref(), Some(name));
    }
    assert!(found(Damage::ExtentOfSize).is_some_and(|what| what.starts_with("extent")));
    assert!(found(Damage::Palette).is_some_and(|what| what.starts_with("palette")));
    assert!(found(Damage::DefinedOfMarked).is_some_and(|what| what == "registers defined"));
    assert!(found(Damage::DeclaredOfSize).is_some_and(|what| what == "declared size"));
    assert!(found(Damage::HeldOfValues).is_some_and(|what| what == "definitions held"));
    assert!(found(Damage::MarkTooMany).is_some_and(|what| what == "mark of register 77"));
    assert!(found(Damage::Before).is_some_and(|what| what.contains("outside the picture")));
}

/// The count by itself, on what the Rust's reach or the size would tell otherwise.
#[test]
fn the_extent_is_that_of_the_painted_pixels() {
    let bounds = Bounds { limits: [64, 64, 64, 4_096], stride: 64, rows: 64 };
    let nothing = &mut |_| ();
    let mut counted = |payload: &str| {
        let mut model = Model::payload(bounds, [None; 2], nothing);
        let fed = model.feed(payload.as_bytes(), u64::MAX, nothing);
        let [_, _, right, bottom, ..] = fed.and_then(|_| model.finish(nothing)).expect("a picture");
        [right, bottom]
    };
    for blank in ["", "!7?", "\"1;1;8;12", "--", "#1;2;100;0;0!3"] {
        assert_eq!(counted(blank), [0, 0], "{blank}");
    }
    for (bits, depth) in [("@", 1), ("A", 2), ("C", 3), ("D", 3), ("G", 4), ("O", 5), ("_", 6), ("`", 6)] {
        assert_eq!(counted(bits), [1, depth], "{bits}");
    }
    let others = [
        ("@!40?", [1, 1]),
        ("~-?", [1, 6]),
        ("-@", [1, 7]),
        ("!3@", [3, 1]),
        ("!5@-G", [5, 10]),
        // In the background's own colour, and covered by it later.
        ("#0!2@", [2, 1]),
        ("#1!4B$#0!4B", [4, 2]),
        ("@\x1b~", [1, 1]),
    ];
    for (payload, extent) in others {
        assert_eq!(counted(payload), extent, "{payload}");
    }
}

/// The count by itself, of registers that colour commands define.
#[test]
fn a_register_is_defined_by_five_values_in_a_known_space() {
    let bounds = Bounds { limits: [64, 64, 64, 4_096], stride: 64, rows: 64 };
    let nothing = &mut |_| ();
    let mut counted = |payload: &str| {
        let mut model = Model::payload(bounds, [None; 2], nothing);
        let fed = model.feed(payload.as_bytes(), u64::MAX, nothing);
        let report = fed.and_then(|_| model.finish(nothing)).expect("a picture");
        let registers: Vec<usize> = (0..256).filter(|&register| model.defined[register]).collect();
        assert_eq!(report[7], registers.len() as u64, "{payload}");
        registers
    };
    for none in
        ["", "#", "#1~", "#1;2;3;4~", "#1;0;3;4;5~", "#1;3;3;4;5~", "#1;;3;4;5~", "\"1;2;3;4;5~", "~\x1b#1;2;3;4;5"]
    {
        assert_eq!(counted(none), [], "{none}");
    }
    let others: [(&str, &[usize]); 9] = [
        ("#1;2;3;4;5~", &[1]),
        ("#1;1;3;4;5~", &[1]),
        ("#1;2;3;4;~", &[1]),
        ("#1;2;3;4;5;6;7~", &[1]),
        ("#;2;3;4;5", &[0]),
        ("#256;2;3;4;5#300;2;3;4;5#255;2;3;4;5~", &[255]),
        ("#7;2;3;4;5#7;1;3;4;5~#7;2;3;4;5", &[7]),
        ("#1;2;20;20;80", &[1]),
        ("#1;2;3;4;5#2;2;3;4;5\x1b#3;2;3;4;5", &[1, 2]),
    ];
    for (payload, registers) in others {
        assert_eq!(counted(payload), registers, "{payload}");
    }
}

/// The count by itself, of the size that rasters declare.
#[test]
fn a_side_is_declared_by_a_raster_that_is_above_0() {
    let bounds = Bounds { limits: [64, 64, 64, 4_096], stride: 64, rows: 64 };
    let nothing = &mut |_| ();
    let mut counted = |payload: &str| {
        let mut model = Model::payload(bounds, [None; 2], nothing);
        let fed = model.feed(payload.as_bytes(), u64::MAX, nothing);
        let [.., width, height, _] = fed.and_then(|_| model.finish(nothing)).expect("a picture");
        [width, height]
    };
    let pictures = [
        ("", [0, 0]),
        ("!5~", [0, 0]),
        ("\"2;1~", [0, 0]),
        ("\"1;1;3;2", [3, 2]),
        ("\"1;1;3;2~", [3, 2]),
        ("~\"1;1;3", [3, 0]),
        ("\"1;1;;2", [0, 2]),
        ("\"1;1;2;2!5~", [2, 2]),
        ("\"1;1;9;8\"1;1;4", [4, 8]),
        ("\"1;1;9;8\"1;1;0;5~", [9, 5]),
        ("\"1;1;9;8\"2;1", [9, 8]),
        ("\"1;1;3;2\x1b\"1;1;4;4", [3, 2]),
    ];
    for (payload, declared) in pictures {
        assert_eq!(counted(payload), declared, "{payload}");
    }
}

/// The count by itself, of definitions with a value above 100 that is no hue.
#[test]
fn a_definition_is_held_once_by_a_value_above_100() {
    let bounds = Bounds { limits: [64, 64, 64, 4_096], stride: 64, rows: 64 };
    let nothing = &mut |_| ();
    let mut counted = |payload: &str| {
        let mut model = Model::payload(bounds, [None; 2], nothing);
        let fed = model.feed(payload.as_bytes(), u64::MAX, nothing);
        let [.., held] = fed.and_then(|_| model.finish(nothing)).expect("a picture");
        held
    };
    for none in [
        "",
        "#101~",
        "#1;2;101;101~",
        "#1;0;101;101;101~",
        "#1;3;101;101;101~",
        "#1;;101;101;101~",
        "#1;2;100;100;100~",
        "#1;2;0;0;~",
        "#1;2;0;0;0;101~",
        "#1;1;101;100;100~",
        "#1;1;99999999999;0;0",
        "\"1;2;9;9;101~",
        "~\x1b#1;2;101;0;0",
    ] {
        assert_eq!(counted(none), 0, "{none}");
    }
    let others = [
        ("#1;2;101;0;0~", 1),
        ("#1;2;0;101;0~", 1),
        ("#1;2;0;0;101", 1),
        ("#1;2;101;0;", 1),
        ("#1;2;0;0;101;7;8~", 1),
        ("#1;2;101;255;99999999999~", 1),
        ("#1;1;0;101;0~", 1),
        ("#1;1;0;0;101~", 1),
        ("#1;1;361;101;101~", 1),
        ("#1;2;101;0;0#1;2;101;0;0#300;1;0;101;0", 3),
        ("#1;2;101;0;0~#1~#1;2;100;0;0~#1;2;0;0;101\x1b#1;2;101;0;0", 2),
    ];
    for (payload, held) in others {
        assert_eq!(counted(payload), held, "{payload}");
    }
}

/// Streams have definitions on either side of what is held.
#[test]
fn values_at_the_end_of_a_percent_come_up() {
    let bounds = Bounds { limits: oracle::LIMITS.map(|limit| limit as u64), stride: u64::MAX, rows: u64::MAX };
    let mut counts = std::collections::BTreeMap::new();
    let effects = &mut |effect| {
        let Effect::Colour { values } = effect else { return };
        let [_, space @ (1 | 2), a, b, c] = values[..] else { return };
        let kind = match if space == 1 { b.max(c) } else { a.max(b).max(c) } {
            0..=99 => "below 100",
            100 => "at 100",
            101 => "at 101",
            _ if space == 1 && c == 0 => "above 101, grey",
            _ => "above 101",
        };
        *counts.entry((space, kind)).or_insert(0) += 1;
    };
    for trial in (0..20_000).map(|number| Trial::new(SEED, number)) {
        if let Entry::Payload(_) = trial.entry {
            let mut model = Model::payload(bounds, [None; 2], effects);
            let _ = model.feed(&trial.stream(), u64::MAX, effects).and_then(|_| model.finish(effects).map(|_| [0; 4]));
        }
    }
    println!("{counts:?}");
    assert!(counts.len() == 9 && counts.values().all(|&count| count >= 10), "{counts:?}");
}

#[test]
fn a_trial_is_a_function_of_seed_and_number() {
    for number in 0..200 {
        assert!(Trial::new(3, number) == Trial::new(3, number));
    }
    assert!((0..50).any(|number| Trial::new(3, number) != Trial::new(4, number)));
}

#[test]
fn shrinking_leaves_the_one_byte_that_matters() {
    let mut reader = Damaged::new(Damage::Nothing);
    assert!(difference(&Trial::new(SEED, 1), &mut reader).is_none());
    let big = Trial {
        entry: Entry::Payload([Some(2), Some(1), None]),
        before: b"#1;2;9;9;9".to_vec(),
        abort: false,
        pieces: vec![b"!1~$#2;1;9".to_vec(), Vec::new(), b"9;9;9-#3~??Z".to_vec(), b"\"1;1;1;1~".to_vec()],
        allowances: vec![usize::MAX, usize::MAX - 1],
        room: [1, 1, 1],
        fill: 99,
        poked: true,
        watched: true,
    };
    let small = shrink(&big, &mut |trial| trial.stream().contains(&b'Z'));
    assert_eq!(small.stream(), b"Z");
    assert_eq!(small.pieces.len(), 1);
    assert!(small.before.is_empty() && !small.poked && small.room == [0; 3]);
}

#[test]
fn a_shrunk_difference_is_printed() {
    let mut reader = Damaged::new(Damage::Pixel);
    let trial = (0..).map(|number| Trial::new(SEED, number)).find(|trial| trial.entry == Entry::Payload([None; 3]));
    let words = smallest(&trial.expect("there is one"), &mut reader);
    for part in ["pixel at column 0, row 0", "    open: 0\n", "    finish: (0, [1, 1, 0, 0, ", "picture status more"] {
        assert!(words.contains(part), "{part} is not in\n{words}");
    }
}
