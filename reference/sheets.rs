//! Makes random sheets, right ones and damaged ones: `sheets SEED COUNT FOLDER`.
//!
//! Sheet number k depends on the seed and on k alone. The generator keeps a rack of its own beside the text, to know
//! which stations rest and what the setpoint is. It does not keep the answers.

#[path = "rack.rs"]
#[allow(dead_code)]
mod rack;

use rack::{line_text, Job, Kind, Rack, Stage, CEILING, MOST_BYTES};
use std::path::Path;
use std::process::ExitCode;

// ---------------------------------------------------------------------------------------------------------------
// Dice
// ---------------------------------------------------------------------------------------------------------------

struct Dice(u64);

impl Dice {
    fn for_sheet(seed: u64, number: u64) -> Dice {
        let mut dice = Dice(seed);
        dice.0 = dice.next() ^ number;
        dice.next();
        dice
    }

    fn next(&mut self) -> u64 {
        self.0 = self.0.wrapping_add(0x9e37_79b9_7f4a_7c15);
        let mut z = self.0;
        z = (z ^ (z >> 30)).wrapping_mul(0xbf58_476d_1ce4_e5b9);
        z = (z ^ (z >> 27)).wrapping_mul(0x94d0_49bb_1331_11eb);
        z ^ (z >> 31)
    }

    /// A number from 0 to n - 1.
    fn below(&mut self, n: usize) -> usize {
        (self.next() % n as u64) as usize
    }

    /// A number from low to high, both included.
    fn between(&mut self, low: i64, high: i64) -> i64 {
        low + self.below((high - low + 1) as usize) as i64
    }

    fn percent(&mut self, share: usize) -> bool {
        self.below(100) < share
    }

    fn pick<T: Copy>(&mut self, things: &[T]) -> T {
        things[self.below(things.len())]
    }
}

// ---------------------------------------------------------------------------------------------------------------
// A right sheet in the making
// ---------------------------------------------------------------------------------------------------------------

struct Draft {
    rack: Rack,
    stations: u32,
    lines: Vec<Vec<u8>>,
}

fn letter_of(kind: Kind) -> char {
    match kind {
        Kind::Fast => 'F',
        Kind::OneBit => 'B',
    }
}

fn order_line(i: u32, job: Job) -> Vec<u8> {
    let (letter, value) = match job {
        Job::Trim(p) => ('T', p),
        Job::Undo => ('U', 0),
        Job::Sign(v) => ('G', v),
    };
    line_text(letter, i as usize, value).into_bytes()
}

fn slot_line(i: u32) -> Vec<u8> {
    line_text('S', i as usize, 0).into_bytes()
}

impl Draft {
    fn new(kind: Kind, stations: u32, start: i64) -> Draft {
        let rack = Rack::set_up(kind, stations, start).expect("a draft has a rack");
        Draft { rack, stations, lines: vec![line_text(letter_of(kind), stations as usize, start).into_bytes()] }
    }

    fn order(&mut self, i: u32, job: Job) {
        let _ = self.rack.order(i, job);
        self.lines.push(order_line(i, job));
    }

    fn slot(&mut self, i: u32) {
        let _ = self.rack.slot(i);
        self.lines.push(slot_line(i));
    }

    fn rests(&self, i: u32) -> bool {
        self.rack.look(i).is_ok_and(|look| look.stage == Stage::Rest)
    }

    fn setpoint(&self) -> i64 {
        self.rack.board().setpoint
    }

    fn any_station(&self, dice: &mut Dice) -> u32 {
        1 + dice.below(self.stations as usize) as u32
    }

    fn text(&self) -> Vec<u8> {
        self.lines.concat()
    }
}

// ---------------------------------------------------------------------------------------------------------------
// Jobs and traffic
// ---------------------------------------------------------------------------------------------------------------

const EDGE_TRIMS: [i64; 10] = [-200, 200, -199, 199, -1, 1, -33, 33, -50, 50];
const REFUSED_TRIMS: [i64; 8] = [0, 201, -201, 202, -202, 1000, 99_999_999, -9_999_999];

fn trim(dice: &mut Dice) -> Job {
    if dice.percent(50) {
        return Job::Trim(dice.pick(&EDGE_TRIMS));
    }
    let size = dice.between(1, 200);
    Job::Trim(if dice.percent(50) { size } else { -size })
}

fn small_trim(dice: &mut Dice) -> Job {
    let size = dice.between(1, 9);
    Job::Trim(if dice.percent(50) { size } else { -size })
}

fn sign(dice: &mut Dice, setpoint: i64) -> Job {
    if dice.percent(60) {
        return Job::Sign(setpoint);
    }
    let near = [setpoint - 1, setpoint + 1, 0, 1, CEILING, CEILING - 1, 200_000];
    Job::Sign(dice.pick(&near).clamp(0, CEILING))
}

/// How many of a hundred jobs are trims and undos. The rest are signs.
#[derive(Clone, Copy)]
struct Mix {
    trims: usize,
    undos: usize,
    small: bool,
}

const EVEN: Mix = Mix { trims: 40, undos: 25, small: false };
const MOSTLY_UNDOS: Mix = Mix { trims: 40, undos: 50, small: false };
const MOSTLY_SIGNS: Mix = Mix { trims: 15, undos: 5, small: false };
const MOSTLY_SMALL_TRIMS: Mix = Mix { trims: 97, undos: 1, small: true };
const MIXES: [Mix; 4] = [EVEN, EVEN, MOSTLY_UNDOS, MOSTLY_SIGNS];

fn job(dice: &mut Dice, mix: Mix, setpoint: i64) -> Job {
    let roll = dice.below(100);
    if roll < mix.trims {
        if mix.small { small_trim(dice) } else { trim(dice) }
    } else if roll < mix.trims + mix.undos {
        Job::Undo
    } else {
        sign(dice, setpoint)
    }
}

/// How often of a hundred lines the next line is for the same station as the last.
const LIGHT: usize = 97;
const BURSTS: usize = 80;
const HEAVY: usize = 10;

/// Adds so many lines: an order for a station that rests, a slot for one that does not, and a few the wrong way round.
fn traffic(draft: &mut Draft, dice: &mut Dice, lines: usize, stay: usize, mix: Mix) {
    let mut i = draft.any_station(dice);
    // In a third of the cases only few stations take part, so that they meet often.
    let some = if dice.percent(33) { 3.min(draft.stations) } else { draft.stations };
    let shift = dice.below(draft.stations as usize) as u32;
    for _ in 0..lines {
        if !dice.percent(stay) {
            i = 1 + (dice.below(some as usize) as u32 + shift) % draft.stations;
        }
        let wrong_way = dice.percent(2);
        if draft.rests(i) != wrong_way {
            let job = job(dice, mix, draft.setpoint());
            draft.order(i, job);
        } else {
            draft.slot(i);
        }
    }
}

/// Orders the job and serves the station until it rests. All others must rest.
fn whole(draft: &mut Draft, i: u32, job: Job) {
    draft.order(i, job);
    while !draft.rests(i) {
        draft.slot(i);
    }
}

// ---------------------------------------------------------------------------------------------------------------
// Recipes for sheets of right form
// ---------------------------------------------------------------------------------------------------------------

#[derive(Clone, Copy)]
struct Plan {
    kind: Kind,
    stations: u32,
}

fn any_start(dice: &mut Dice) -> i64 {
    match dice.below(3) {
        0 => dice.between(0, CEILING),
        1 => dice.pick(&[0, 1, 19, 1000, 199_999, 200_000, 333_334, 333_335, 399_999, CEILING]),
        _ => dice.between(100_000, 300_000),
    }
}

fn busy(plan: Plan, dice: &mut Dice, start: i64, stay: usize, mix: Mix) -> Draft {
    let mut draft = Draft::new(plan.kind, plan.stations, start);
    let lines = if dice.percent(10) { dice.between(1000, 3000) } else { dice.between(0, 700) };
    traffic(&mut draft, dice, lines as usize, stay, mix);
    draft
}

fn with_contention(plan: Plan, dice: &mut Dice, stay: usize) -> Vec<u8> {
    let (start, mix) = (any_start(dice), dice.pick(&MIXES));
    busy(plan, dice, start, stay, mix).text()
}

/// Starts from which this trim leads exactly to the ceiling, or just over it.
const TO_THE_CEILING: [(i64, i64); 7] =
    [(333_334, 200), (333_335, 200), (363_637, 100), (363_638, 100), (399_601, 1), (399_602, 1), (CEILING, 1)];

fn at_the_ceiling(plan: Plan, dice: &mut Dice) -> Vec<u8> {
    let (start, p) = dice.pick(&TO_THE_CEILING);
    let mut draft = Draft::new(plan.kind, plan.stations, start);
    let i = draft.any_station(dice);
    whole(&mut draft, i, Job::Trim(p));
    let (lines, stay) = (dice.below(500), dice.pick(&[LIGHT, BURSTS, HEAVY]));
    traffic(&mut draft, dice, lines, stay, Mix { trims: 70, undos: 20, small: false });
    draft.text()
}

fn near_zero(plan: Plan, dice: &mut Dice) -> Vec<u8> {
    let start = dice.between(0, 60);
    let stay = dice.pick(&[LIGHT, BURSTS, HEAVY]);
    busy(plan, dice, start, stay, EVEN).text()
}

/// Goes on until 64 trims are in force, and further.
fn full_pile(plan: Plan, dice: &mut Dice) -> Vec<u8> {
    let start = dice.pick(&[0, 4, 200_000, CEILING]);
    let mut draft = Draft::new(plan.kind, plan.stations, start);
    if dice.percent(50) {
        let stay = dice.pick(&[LIGHT, BURSTS]);
        while draft.rack.board().depth < 64 && draft.lines.len() < 4500 {
            traffic(&mut draft, dice, 20, stay, MOSTLY_SMALL_TRIMS);
        }
        traffic(&mut draft, dice, 300, stay, EVEN);
        return draft.text();
    }
    for round in 0..64 {
        // Down and up again by a little. From the ceiling this stays near it.
        let i = draft.any_station(dice);
        whole(&mut draft, i, Job::Trim(if round % 2 == 0 { -1 } else { 1 }));
    }
    for job in [Job::Trim(200), Job::Trim(-200), Job::Undo, Job::Trim(1), Job::Trim(-5), Job::Undo, Job::Undo] {
        let i = draft.any_station(dice);
        whole(&mut draft, i, job);
    }
    traffic(&mut draft, dice, 300, BURSTS, EVEN);
    draft.text()
}

fn undo_to_the_end(plan: Plan, dice: &mut Dice) -> Vec<u8> {
    let mut draft = Draft::new(plan.kind, plan.stations, any_start(dice));
    let trims = dice.between(0, 12);
    for _ in 0..trims {
        let (i, job) = (draft.any_station(dice), trim(dice));
        whole(&mut draft, i, job);
    }
    for _ in 0..trims + 2 {
        let i = draft.any_station(dice);
        whole(&mut draft, i, if dice.percent(90) { Job::Undo } else { Job::Sign(400) });
    }
    traffic(&mut draft, dice, 100, HEAVY, MOSTLY_UNDOS);
    draft.text()
}

/// Many signs, right and wrong. The signer is seen only at the end, so half of the sheets end with a right sign and
/// with jobs without effect, which leave the signer alone.
fn signs(plan: Plan, dice: &mut Dice) -> Vec<u8> {
    let start = any_start(dice);
    if dice.percent(50) {
        let stay = dice.pick(&[LIGHT, BURSTS, HEAVY]);
        return busy(plan, dice, start, stay, MOSTLY_SIGNS).text();
    }
    let mut draft = Draft::new(plan.kind, plan.stations, start);
    for _ in 0..dice.below(5) {
        let (i, job) = (draft.any_station(dice), job(dice, EVEN, draft.setpoint()));
        whole(&mut draft, i, job);
    }
    let last = if dice.percent(50) { plan.stations } else { draft.any_station(dice) };
    let right = draft.setpoint();
    whole(&mut draft, last, Job::Sign(right));
    for _ in 0..dice.below(3) {
        let (i, wrong) = (draft.any_station(dice), if right == 0 { 1 } else { right - 1 });
        whole(&mut draft, i, Job::Sign(wrong));
    }
    draft.text()
}

fn strange_station(dice: &mut Dice, stations: u32) -> u32 {
    dice.pick(&[0, stations + 1, 17, 99, 999])
}

fn refused_calls(plan: Plan, dice: &mut Dice) -> Vec<u8> {
    let mut draft = Draft::new(plan.kind, plan.stations, any_start(dice));
    let lines = dice.between(20, 400);
    for _ in 0..lines {
        let own = draft.any_station(dice);
        let i = if dice.percent(25) { strange_station(dice, plan.stations) } else { own };
        match dice.below(8) {
            0 => draft.order(i, Job::Trim(dice.pick(&REFUSED_TRIMS))),
            1 => draft.order(i, Job::Sign(dice.pick(&[CEILING + 1, CEILING, 999_999, 99_999_999]))),
            2 => draft.order(i, Job::Undo),
            3 => draft.order(i, Job::Trim(dice.pick(&[200, -200, 7]))),
            4 | 5 => draft.slot(i),
            _ => traffic(&mut draft, dice, 8, BURSTS, EVEN),
        }
    }
    draft.text()
}

fn refused_set_up(plan: Plan, dice: &mut Dice) -> Vec<u8> {
    let own = plan.stations as usize;
    let stations = dice.pick(&[0, 17, 18, 99, 999, own, own]);
    let start = dice.pick(&[CEILING + 1, CEILING + 1, 999_999, 99_999_999, CEILING, 0]);
    let mut text = line_text(letter_of(plan.kind), stations, start).into_bytes();
    let rest: [&[u8]; 5] = [b"", b"S  1       0\n", b"\n", b"U  1       0\nT  1      -0\n", b"S"];
    text.extend(dice.pick(&rest));
    text
}

// ---------------------------------------------------------------------------------------------------------------
// Damage
// ---------------------------------------------------------------------------------------------------------------

#[derive(Clone, Copy)]
enum Damage {
    WrongLetter,
    SmallLetter,
    ZeroBeforeStation,
    ZeroBeforeValue,
    BlankStation,
    BlankValue,
    NotAtRightEdge,
    SpaceAmongDigits,
    Minus,
    MinusBeforeZero,
    TwoMinuses,
    LoneMinus,
    PlusSign,
    NoNumber,
    ValueNotZero,
    CharacterLost,
    CharacterTwice,
    Short,
    Long,
    Empty,
    SpaceBeforeEnd,
    CarriageReturn,
    CarriageReturnInPlace,
    EarlyLineFeed,
    ByteOutsideAscii,
    ControlByte,
    OneByteChanged,
    TwoBytesSwapped,
    NewTail,
    CutHere,
    LineFeedMissing,
}

const DAMAGES: [Damage; 31] = [
    Damage::WrongLetter,
    Damage::SmallLetter,
    Damage::ZeroBeforeStation,
    Damage::ZeroBeforeValue,
    Damage::BlankStation,
    Damage::BlankValue,
    Damage::NotAtRightEdge,
    Damage::SpaceAmongDigits,
    Damage::Minus,
    Damage::MinusBeforeZero,
    Damage::TwoMinuses,
    Damage::LoneMinus,
    Damage::PlusSign,
    Damage::NoNumber,
    Damage::ValueNotZero,
    Damage::CharacterLost,
    Damage::CharacterTwice,
    Damage::Short,
    Damage::Long,
    Damage::Empty,
    Damage::SpaceBeforeEnd,
    Damage::CarriageReturn,
    Damage::CarriageReturnInPlace,
    Damage::EarlyLineFeed,
    Damage::ByteOutsideAscii,
    Damage::ControlByte,
    Damage::OneByteChanged,
    Damage::TwoBytesSwapped,
    Damage::NewTail,
    Damage::CutHere,
    Damage::LineFeedMissing,
];

/// The forms of numbers that are easiest to get wrong.
const NUMBER_DAMAGES: [Damage; 6] = [
    Damage::ZeroBeforeStation,
    Damage::ZeroBeforeValue,
    Damage::Minus,
    Damage::MinusBeforeZero,
    Damage::NotAtRightEdge,
    Damage::ValueNotZero,
];

const ALPHABET: &[u8] = b"  00123456789--+\n\rFBTUGSXPDWfbtugs\t\0\x80\xc3\xff";

/// Writes the text so that it ends before column `end`, counted from 0.
fn put(line: &mut [u8], end: usize, text: &str) {
    line[end - text.len()..end].copy_from_slice(text.as_bytes());
}

/// A number of one to `width` digits without a leading zero.
fn number(dice: &mut Dice, width: usize) -> String {
    let digits = 1 + dice.below(width);
    let first = if digits == 1 { 0 } else { 10_i64.pow(digits as u32 - 1) };
    dice.between(first, 10_i64.pow(digits as u32) - 1).to_string()
}

/// A line of right form for the place. The call may well refuse it.
fn right_line(dice: &mut Dice, first_line: bool) -> Vec<u8> {
    let letter = if first_line { dice.pick(b"FB") } else { dice.pick(b"TTTTUGGS") };
    let mut line = format!("{:<12}\n", letter as char).into_bytes();
    put(&mut line, 4, &number(dice, 3));
    let value = match letter {
        b'T' if dice.percent(50) => format!("-{}", 1 + number(dice, 7).parse::<i64>().unwrap() % 9_999_999),
        b'U' | b'S' => "0".to_string(),
        _ => number(dice, 8),
    };
    put(&mut line, 12, &value);
    line
}

/// Where the station field or the value field lies, counted from 0.
fn any_field(dice: &mut Dice) -> std::ops::Range<usize> {
    if dice.percent(40) { 1..4 } else { 4..12 }
}

fn shift_left(field: &mut [u8]) {
    field.rotate_left(1);
    *field.last_mut().expect("a field has columns") = b' ';
}

/// The damaged line, and whether the sheet ends with it. Some damage leaves some lines right.
fn damaged(dice: &mut Dice, damage: Damage, mut line: Vec<u8>) -> (Vec<u8>, bool) {
    let column = dice.below(line.len());
    let field = any_field(dice);
    match damage {
        Damage::WrongLetter => line[0] = dice.pick(b"FBTUGSXPDWLAZ 019-"),
        Damage::SmallLetter => line[0] = line[0].to_ascii_lowercase(),
        Damage::ZeroBeforeStation => put(&mut line, 4, dice.pick(&["01", "00", "001", "010", "09"])),
        Damage::ZeroBeforeValue => put(&mut line, 12, dice.pick(&["01", "00", "0200", "00000000", "02000000", "007"])),
        Damage::BlankStation => put(&mut line, 4, "   "),
        Damage::BlankValue => put(&mut line, 12, "        "),
        Damage::NotAtRightEdge => shift_left(&mut line[field]),
        Damage::SpaceAmongDigits => put(&mut line, field.end, dice.pick(&["1 1", "2 0", "0 0", "- 1"])),
        Damage::Minus => put(&mut line, field.end, dice.pick(&["-1", "-33", "-20", "-9"])),
        Damage::MinusBeforeZero => put(&mut line, 12, dice.pick(&["-0", "-05", "-00", "-0000001", " -020"])),
        Damage::TwoMinuses => put(&mut line, 12, dice.pick(&["--1", "-1-", "1-1", "-5-5", "--------"])),
        Damage::LoneMinus => put(&mut line, field.end, dice.pick(&["  -", " - ", "-  "])),
        Damage::PlusSign => put(&mut line, field.end, dice.pick(&["+1", "+0", "+33"])),
        Damage::NoNumber => put(&mut line, field.end, dice.pick(&["x", "1x", "0x1", "1e3", "1.0", "1,0", "one"])),
        Damage::ValueNotZero => put(&mut line, 12, dice.pick(&["1", "10", "9", "00", "12345678"])),
        Damage::CharacterLost => drop(line.remove(column)),
        Damage::CharacterTwice => line.insert(column, line[column]),
        Damage::Short => drop(line.drain(column.min(11)..12)),
        Damage::Long => drop(line.splice(12..12, dice.pick(&["0", " ", "12", "  # note", "S  1       0"]).bytes())),
        Damage::Empty => line = b"\n".to_vec(),
        Damage::SpaceBeforeEnd => line.insert(12, b' '),
        Damage::CarriageReturn => line.insert(12, b'\r'),
        Damage::CarriageReturnInPlace => line[12] = b'\r',
        Damage::EarlyLineFeed => line[column] = b'\n',
        Damage::ByteOutsideAscii => line[column] = dice.between(0x80, 0xff) as u8,
        Damage::ControlByte => line[column] = dice.pick(&[0, 1, 8, 9, 11, 12, 27, 127]),
        Damage::OneByteChanged => line[column] = dice.pick(ALPHABET),
        Damage::TwoBytesSwapped => line.swap(column, (column + 1) % 13),
        Damage::NewTail => line[column..].fill_with(|| dice.pick(ALPHABET)),
        Damage::CutHere => line.truncate(column),
        Damage::LineFeedMissing => line.truncate(12),
    }
    (line, matches!(damage, Damage::CutHere | Damage::LineFeedMissing))
}

/// A short right sheet with one damaged line in it, mostly with more lines behind.
fn damaged_sheet(plan: Plan, dice: &mut Dice, first_line: bool) -> Vec<u8> {
    let mut draft = Draft::new(plan.kind, plan.stations, any_start(dice));
    let lines = dice.between(1, 30) as usize;
    traffic(&mut draft, dice, lines, BURSTS, EVEN);
    let damage = if dice.percent(40) { dice.pick(&NUMBER_DAMAGES) } else { dice.pick(&DAMAGES) };
    let at = if first_line { 0 } else { 1 + dice.below(lines) };
    // Some of the damaged lines are lines of this sheet, most are new.
    let before = if dice.percent(30) { draft.lines[at].clone() } else { right_line(dice, first_line) };
    let (line, sheet_ends) = damaged(dice, damage, before);
    draft.lines[at] = line;
    if sheet_ends {
        draft.lines.truncate(at + 1);
    }
    draft.text()
}

fn noise(plan: Plan, dice: &mut Dice) -> Vec<u8> {
    let mut text = Vec::new();
    if dice.percent(60) {
        text = Draft::new(plan.kind, plan.stations, any_start(dice)).text();
    }
    let length = dice.below(80);
    if dice.percent(50) {
        text.extend((0..length).map(|_| dice.pick(ALPHABET)));
    } else {
        text.extend((0..length).map(|_| dice.below(256) as u8));
    }
    text
}

// ---------------------------------------------------------------------------------------------------------------
// Lengths and ends
// ---------------------------------------------------------------------------------------------------------------

/// A right sheet of exactly 65,000 bytes.
fn longest_sheet(plan: Plan, dice: &mut Dice) -> Draft {
    let mut draft = Draft::new(plan.kind, plan.stations, any_start(dice));
    let (stay, mix) = (dice.pick(&[LIGHT, BURSTS, HEAVY]), dice.pick(&MIXES));
    let lines = MOST_BYTES / draft.lines[0].len() - 1;
    traffic(&mut draft, dice, lines, stay, mix);
    draft
}

fn about_the_limit(plan: Plan, dice: &mut Dice) -> Vec<u8> {
    let mut draft = longest_sheet(plan, dice);
    match dice.below(12) {
        0..=3 => draft.text(),
        4 => [draft.text(), vec![dice.pick(b"\nS\0\xff")]].concat(),
        5 => [draft.text(), slot_line(1)].concat(),
        6 => [draft.text(), draft.text()].concat(),
        7 => draft.text()[..MOST_BYTES - 1].to_vec(),
        8 => {
            // Too long and refused, or too long and wrong in line 1: the length is tested first.
            let first_lines = ["F 17  200000\n", "B  1  400001\n", "L  1  200000\n", "F  1   00000\n"];
            draft.lines[0] = dice.pick(&first_lines).as_bytes().to_vec();
            [draft.text(), b"\n".to_vec()].concat()
        }
        9 => {
            let at = dice.below(5000);
            draft.lines[at][dice.below(13)] = dice.pick(ALPHABET);
            draft.text()
        }
        10 => vec![dice.pick(b"\nFS \xff"); MOST_BYTES + dice.below(2)],
        _ => {
            // Wrong in the last line, which is the longest line number there is.
            let last = draft.lines.len() - 1;
            let (damage, line) = (dice.pick(&DAMAGES), draft.lines[last].clone());
            draft.lines[last] = damaged(dice, damage, line).0;
            draft.text()
        }
    }
}

fn ends(plan: Plan, dice: &mut Dice) -> Vec<u8> {
    let mut draft = Draft::new(plan.kind, plan.stations, any_start(dice));
    let first = draft.text();
    traffic(&mut draft, dice, 20, BURSTS, EVEN);
    let text = draft.text();
    match dice.below(10) {
        0 => Vec::new(),
        1 => b"\n".to_vec(),
        2 => first,
        3 => first[..12].to_vec(),
        4 => [first, b"\n".to_vec()].concat(),
        5 => [text.clone(), text].concat(),
        6 => [text, dice.pick(&[&b"\n"[..], b" ", b"\0", b"\x1a", b"\r\n"]).to_vec()].concat(),
        7 => [b"\xef\xbb\xbf".to_vec(), text].concat(),
        8 => String::from_utf8(text).expect("a right sheet is ASCII").replace('\n', "\r\n").into_bytes(),
        _ => text[..dice.below(text.len() + 1)].to_vec(),
    }
}

// ---------------------------------------------------------------------------------------------------------------
// All sheets
// ---------------------------------------------------------------------------------------------------------------

type Recipe = fn(Plan, &mut Dice) -> Vec<u8>;

/// The recipes go in turn. Their number is odd, so each meets all 32 pairs of a lock and a number of stations.
const RECIPES: [(&str, Recipe); 21] = [
    ("light", |plan, dice| with_contention(plan, dice, LIGHT)),
    ("damaged", |plan, dice| damaged_sheet(plan, dice, false)),
    ("bursts", |plan, dice| with_contention(plan, dice, BURSTS)),
    ("heavy", |plan, dice| with_contention(plan, dice, HEAVY)),
    ("damaged", |plan, dice| damaged_sheet(plan, dice, false)),
    ("ceiling", at_the_ceiling),
    ("near-zero", near_zero),
    ("damaged", |plan, dice| damaged_sheet(plan, dice, false)),
    ("first-line", |plan, dice| damaged_sheet(plan, dice, true)),
    ("full-pile", full_pile),
    ("undo", undo_to_the_end),
    ("damaged", |plan, dice| damaged_sheet(plan, dice, false)),
    ("signs", signs),
    ("damaged", |plan, dice| damaged_sheet(plan, dice, false)),
    ("refused-calls", refused_calls),
    ("refused-set-up", refused_set_up),
    ("damaged", |plan, dice| damaged_sheet(plan, dice, false)),
    ("noise", noise),
    ("limit", about_the_limit),
    ("ends", ends),
    ("damaged", |plan, dice| damaged_sheet(plan, dice, false)),
];

/// The name and the text of sheet number k.
fn sheet(seed: u64, k: u64) -> (String, Vec<u8>) {
    let (name, recipe) = RECIPES[k as usize % RECIPES.len()];
    let kind = if (k / 16) % 2 == 0 { Kind::Fast } else { Kind::OneBit };
    let plan = Plan { kind, stations: 1 + (k % 16) as u32 };
    (format!("{k:06}-{name}.sheet"), recipe(plan, &mut Dice::for_sheet(seed, k)))
}

fn write_sheets(seed: u64, count: u64, folder: &Path) -> std::io::Result<()> {
    for k in 0..count {
        let (name, text) = sheet(seed, k);
        std::fs::write(folder.join(name), text)?;
    }
    Ok(())
}

fn main() -> ExitCode {
    let words: Vec<String> = std::env::args().skip(1).collect();
    let numbers: Vec<u64> = words.iter().take(2).filter_map(|word| word.parse().ok()).collect();
    if words.len() != 3 || numbers.len() != 2 {
        eprintln!("usage: sheets SEED COUNT FOLDER");
        return ExitCode::FAILURE;
    }
    match write_sheets(numbers[0], numbers[1], Path::new(&words[2])) {
        Ok(()) => ExitCode::SUCCESS,
        Err(error) => {
            eprintln!("sheets: {error}");
            ExitCode::FAILURE
        }
    }
}
