//! The rack, written a second time from the rules alone. It is meant to be read: nothing here is tuned for speed.
//!
//! The program reads one sheet from standard input and writes its answers to standard output.
//! Other programs take this file in as a module and use the rack itself: set_up, order, slot, look, board.

use std::fs::File;
use std::io::{self, Read, Write};
use std::os::fd::AsFd;
use std::process::ExitCode;

pub const MOST_STATIONS: u32 = 16;
pub const CEILING: i64 = 400_000;
pub const PILE: usize = 64;
pub const MOST_PERMILLE: i64 = 200;
pub const MOST_BYTES: usize = 65_000;

// ---------------------------------------------------------------------------------------------------------------
// Names
// ---------------------------------------------------------------------------------------------------------------

#[derive(Clone, Copy, PartialEq, Eq, Hash, Debug)]
pub enum Stage {
    Rest = 0,
    Trying = 1,
    Inside = 2,
    Leaving = 3,
}

#[derive(Clone, Copy, PartialEq, Eq, Hash, Debug)]
pub enum Job {
    Trim(i64),
    Undo,
    Sign(i64),
}

#[derive(Clone, Copy, PartialEq, Eq, Hash, Debug)]
pub enum Verdict {
    Done = 1,
    PileFull = 2,
    OverCeiling = 3,
    NothingToUndo = 4,
    SetpointDiffers = 5,
}

/// Refusals 8 and 9 belong to the sheet and have the line X of their own.
#[derive(Clone, Copy, PartialEq, Eq, Hash, Debug)]
pub enum Refusal {
    WrongNumberOfStations = 1,
    StartAboveCeiling = 2,
    NoSuchStation = 3,
    TrimOutOfRange = 4,
    SignOutOfRange = 5,
    NotAtRest = 6,
    AtRest = 7,
}

/// What an accepted slot answers.
#[derive(Clone, Copy, PartialEq, Eq, Hash, Debug)]
pub enum Served {
    StillTrying,
    NowInside,
    MoreToCome,
    JobEnded(Verdict),
    StillLeaving,
    NowAtRest,
}

impl Served {
    pub fn number(self) -> i64 {
        match self {
            Served::StillTrying => 10,
            Served::NowInside => 11,
            Served::MoreToCome => 12,
            Served::StillLeaving => 13,
            Served::NowAtRest => 14,
            Served::JobEnded(verdict) => 20 + verdict as i64,
        }
    }
}

/// One read or one write of one register.
enum Access<Register> {
    Read(Register),
    Write(Register, i64),
}

use Access::{Read as Reads, Write as Writes};

// ---------------------------------------------------------------------------------------------------------------
// The locks. Stations are numbered from 1.
// ---------------------------------------------------------------------------------------------------------------

#[derive(Clone, Copy, PartialEq, Eq, Hash, Debug)]
pub enum Kind {
    Fast,
    OneBit,
}

/// A known mistake, put into the lock on purpose to see whether a check finds it. The sheet program plants none.
#[derive(Clone, Copy, PartialEq, Eq, Hash, Debug)]
pub enum Plant {
    Nothing,
    /// Fast lock: Lower goes straight to Recheck, without the scan.
    NoScan,
    /// One-bit lock: Await goes straight back to CheckLow, without raising the flag again.
    NoRaise,
}

#[derive(Clone, Copy, PartialEq, Eq, Hash, Debug)]
pub enum OneBitStep {
    Raise,
    CheckLow(u32),
    Yield(u32),
    Await(u32),
    CheckHigh(u32),
    Lower,
}

#[derive(Clone, Copy, PartialEq, Eq, Hash, Debug)]
pub enum FastStep {
    Raise,
    Announce,
    Glance,
    Retreat,
    Await,
    Claim,
    Confirm,
    Lower,
    Scan(u32),
    Recheck,
    Retry,
    Release,
    Clear,
}

#[derive(Clone, Copy, PartialEq, Eq, Hash, Debug)]
pub enum Step {
    OneBit(OneBitStep),
    Fast(FastStep),
}

/// Where a station stands in the lock. A step is the access its next turn makes.
#[derive(Clone, Copy, PartialEq, Eq, Hash, Debug)]
pub enum Place {
    Rest,
    Trying(Step),
    Inside,
    Leaving(Step),
}

#[derive(Clone, Copy)]
enum LockRegister {
    Flag(u32),
    X,
    Y,
}

#[derive(Clone, PartialEq, Eq, Hash, Debug)]
pub struct Lock {
    kind: Kind,
    plant: Plant,
    /// Flag of station i at i - 1.
    flags: Vec<i64>,
    /// X and Y stay 0 in the one-bit lock, which does not have them.
    x: i64,
    y: i64,
    /// Place of station i at i - 1.
    places: Vec<Place>,
}

impl Lock {
    pub fn fresh(kind: Kind, plant: Plant, stations: u32) -> Lock {
        let n = stations as usize;
        Lock { kind, plant, flags: vec![0; n], x: 0, y: 0, places: vec![Place::Rest; n] }
    }

    pub fn stations(&self) -> u32 {
        self.places.len() as u32
    }

    /// The most turns of its own that a trying station needs while all others rest.
    pub fn lone_number(&self) -> u32 {
        match self.kind {
            Kind::OneBit => self.stations() + 2,
            Kind::Fast => self.stations() + 9,
        }
    }

    /// The most turns of its own that a leaving station needs.
    pub fn leave_number(&self) -> u32 {
        match self.kind {
            Kind::OneBit => 1,
            Kind::Fast => 2,
        }
    }

    /// The turn with which a station is inside if it begins while all rest and nobody else begins.
    pub fn exact_entry(&self) -> u32 {
        match self.kind {
            Kind::OneBit => self.stations(),
            Kind::Fast => 5,
        }
    }

    pub fn place(&self, i: u32) -> Place {
        self.places[i as usize - 1]
    }

    pub fn stage(&self, i: u32) -> Stage {
        match self.place(i) {
            Place::Rest => Stage::Rest,
            Place::Trying(_) => Stage::Trying,
            Place::Inside => Stage::Inside,
            Place::Leaving(_) => Stage::Leaving,
        }
    }

    fn go(&mut self, i: u32, place: Place) {
        self.places[i as usize - 1] = place;
    }

    fn begin(&mut self, i: u32) {
        assert!(self.place(i) == Place::Rest);
        let first = match self.kind {
            Kind::OneBit => Step::OneBit(OneBitStep::Raise),
            Kind::Fast => Step::Fast(FastStep::Raise),
        };
        self.go(i, Place::Trying(first));
    }

    fn end(&mut self, i: u32) {
        assert!(self.place(i) == Place::Inside);
        let first = match self.kind {
            Kind::OneBit => Step::OneBit(OneBitStep::Lower),
            Kind::Fast => Step::Fast(FastStep::Release),
        };
        self.go(i, Place::Leaving(first));
    }

    /// Makes exactly one access and moves station i on by what was read.
    fn turn(&mut self, i: u32) {
        let step = match self.place(i) {
            Place::Trying(step) | Place::Leaving(step) => step,
            Place::Rest | Place::Inside => panic!("a turn is for a trying or leaving station"),
        };
        let access = match step {
            Step::OneBit(step) => one_bit_access(step, i),
            Step::Fast(step) => fast_access(step, i),
        };
        let value = self.make(access);
        let n = self.stations();
        let next = match step {
            Step::OneBit(step) => one_bit_next(step, i, n, value, self.plant),
            Step::Fast(step) => fast_next(step, i, n, value, self.plant),
        };
        self.go(i, next);
    }

    /// Gives the value read. A write gives back what it wrote, and nobody looks at it.
    fn make(&mut self, access: Access<LockRegister>) -> i64 {
        match access {
            Reads(register) => *self.register(register),
            Writes(register, value) => {
                *self.register(register) = value;
                value
            }
        }
    }

    fn register(&mut self, register: LockRegister) -> &mut i64 {
        match register {
            LockRegister::Flag(j) => &mut self.flags[j as usize - 1],
            LockRegister::X => &mut self.x,
            LockRegister::Y => &mut self.y,
        }
    }
}

fn one_bit_access(step: OneBitStep, i: u32) -> Access<LockRegister> {
    use LockRegister::Flag;
    match step {
        OneBitStep::Raise => Writes(Flag(i), 1),
        OneBitStep::CheckLow(j) | OneBitStep::Await(j) | OneBitStep::CheckHigh(j) => Reads(Flag(j)),
        OneBitStep::Yield(_) | OneBitStep::Lower => Writes(Flag(i), 0),
    }
}

fn one_bit_next(step: OneBitStep, i: u32, n: u32, value: i64, plant: Plant) -> Place {
    use OneBitStep::*;
    let trying = |step| Place::Trying(Step::OneBit(step));
    let check_high = |j| if j <= n { trying(CheckHigh(j)) } else { Place::Inside };
    let check_low = |j| if j < i { trying(CheckLow(j)) } else { check_high(i + 1) };
    match step {
        Raise => check_low(1),
        CheckLow(j) if value == 1 => trying(Yield(j)),
        CheckLow(j) => check_low(j + 1),
        Yield(j) => trying(Await(j)),
        Await(j) if value == 1 => trying(Await(j)),
        Await(_) if plant == Plant::NoRaise => check_low(1),
        Await(_) => trying(Raise),
        CheckHigh(j) if value == 1 => trying(CheckHigh(j)),
        CheckHigh(j) => check_high(j + 1),
        Lower => Place::Rest,
    }
}

fn fast_access(step: FastStep, i: u32) -> Access<LockRegister> {
    use LockRegister::{Flag, X, Y};
    match step {
        FastStep::Raise => Writes(Flag(i), 1),
        FastStep::Announce => Writes(X, i as i64),
        FastStep::Glance | FastStep::Await | FastStep::Recheck | FastStep::Retry => Reads(Y),
        FastStep::Retreat | FastStep::Lower | FastStep::Clear => Writes(Flag(i), 0),
        FastStep::Claim => Writes(Y, i as i64),
        FastStep::Confirm => Reads(X),
        FastStep::Scan(j) => Reads(Flag(j)),
        FastStep::Release => Writes(Y, 0),
    }
}

fn fast_next(step: FastStep, i: u32, n: u32, value: i64, plant: Plant) -> Place {
    use FastStep::*;
    let trying = |step| Place::Trying(Step::Fast(step));
    let scan = |j| if j <= n { trying(Scan(j)) } else { trying(Recheck) };
    let own = value == i as i64;
    match step {
        Raise => trying(Announce),
        Announce => trying(Glance),
        Glance => trying(if value == 0 { Claim } else { Retreat }),
        Retreat => trying(Await),
        Await => trying(if value == 0 { Raise } else { Await }),
        Claim => trying(Confirm),
        Confirm => if own { Place::Inside } else { trying(Lower) },
        Lower if plant == Plant::NoScan => trying(Recheck),
        Lower => scan(1),
        Scan(j) => if value == 1 { trying(Scan(j)) } else { scan(j + 1) },
        Recheck => if own { Place::Inside } else { trying(Retry) },
        Retry => trying(if value == 0 { Raise } else { Retry }),
        Release => Place::Leaving(Step::Fast(Clear)),
        Clear => Place::Rest,
    }
}

// ---------------------------------------------------------------------------------------------------------------
// The board and the jobs
// ---------------------------------------------------------------------------------------------------------------

#[derive(Clone, PartialEq, Eq, Hash, Debug)]
pub struct Board {
    pub setpoint: i64,
    pub depth: i64,
    pub signer: i64,
    /// Entry k at k - 1.
    pub entries: [i64; PILE],
}

#[derive(Clone, Copy)]
enum BoardRegister {
    Setpoint,
    Depth,
    Signer,
    Entry(i64),
}

impl Board {
    pub fn fresh(start: i64) -> Board {
        Board { setpoint: start, depth: 0, signer: 0, entries: [0; PILE] }
    }

    /// Entries 1 to depth, the newest last.
    pub fn pile(&self) -> &[i64] {
        &self.entries[..self.depth as usize]
    }

    /// Equal but for entries above depth, which may be left over.
    pub fn agrees_with(&self, other: &Board) -> bool {
        (self.setpoint, self.depth, self.signer) == (other.setpoint, other.depth, other.signer)
            && self.pile() == other.pile()
    }

    /// Gives the value read. A write gives back what it wrote, and nobody looks at it.
    fn make(&mut self, access: Access<BoardRegister>) -> i64 {
        match access {
            Reads(register) => *self.register(register),
            Writes(register, value) => {
                *self.register(register) = value;
                value
            }
        }
    }

    fn register(&mut self, register: BoardRegister) -> &mut i64 {
        match register {
            BoardRegister::Setpoint => &mut self.setpoint,
            BoardRegister::Depth => &mut self.depth,
            BoardRegister::Signer => &mut self.signer,
            BoardRegister::Entry(k) => &mut self.entries[k as usize - 1],
        }
    }
}

/// The next access of a job, with the values read so far: setpoint a, depth k, difference d.
#[derive(Clone, Copy, PartialEq, Eq, Hash, Debug)]
pub enum Task {
    TrimReadSetpoint { p: i64 },
    TrimReadDepth { p: i64, a: i64 },
    TrimWriteEntry { a: i64, k: i64, d: i64 },
    TrimWriteDepth { a: i64, k: i64, d: i64 },
    TrimWriteSetpoint { a: i64, d: i64 },
    UndoReadDepth,
    UndoReadEntry { k: i64 },
    UndoReadSetpoint { k: i64, d: i64 },
    UndoWriteDepth { k: i64, d: i64, a: i64 },
    UndoWriteSetpoint { d: i64, a: i64 },
    /// The last access of a trim and of an undo.
    ClearSigner,
    SignReadSetpoint { v: i64 },
    SignWriteSigner,
}

enum Next {
    More(Task),
    Ended(Verdict),
}

pub fn difference(setpoint: i64, p: i64) -> i64 {
    // Division drops the fraction towards zero.
    setpoint * p / 1000
}

fn first_task(job: Job) -> Task {
    match job {
        Job::Trim(p) => Task::TrimReadSetpoint { p },
        Job::Undo => Task::UndoReadDepth,
        Job::Sign(v) => Task::SignReadSetpoint { v },
    }
}

fn task_access(task: Task, i: u32) -> Access<BoardRegister> {
    use BoardRegister::*;
    match task {
        Task::TrimReadSetpoint { .. } => Reads(Setpoint),
        Task::TrimReadDepth { .. } => Reads(Depth),
        Task::TrimWriteEntry { k, d, .. } => Writes(Entry(k + 1), d),
        Task::TrimWriteDepth { k, .. } => Writes(Depth, k + 1),
        Task::TrimWriteSetpoint { a, d } => Writes(Setpoint, a + d),
        Task::UndoReadDepth => Reads(Depth),
        Task::UndoReadEntry { k } => Reads(Entry(k)),
        Task::UndoReadSetpoint { .. } => Reads(Setpoint),
        Task::UndoWriteDepth { k, .. } => Writes(Depth, k - 1),
        Task::UndoWriteSetpoint { d, a } => Writes(Setpoint, a - d),
        Task::ClearSigner => Writes(Signer, 0),
        Task::SignReadSetpoint { .. } => Reads(Setpoint),
        Task::SignWriteSigner => Writes(Signer, i as i64),
    }
}

fn task_next(task: Task, value: i64) -> Next {
    use Next::{Ended, More};
    match task {
        Task::TrimReadSetpoint { p } => More(Task::TrimReadDepth { p, a: value }),
        Task::TrimReadDepth { p, a } => after_trim_reads(a, value, difference(a, p)),
        Task::TrimWriteEntry { a, k, d } => More(Task::TrimWriteDepth { a, k, d }),
        Task::TrimWriteDepth { a, d, .. } => More(Task::TrimWriteSetpoint { a, d }),
        Task::TrimWriteSetpoint { .. } => More(Task::ClearSigner),
        Task::UndoReadDepth if value == 0 => Ended(Verdict::NothingToUndo),
        Task::UndoReadDepth => More(Task::UndoReadEntry { k: value }),
        Task::UndoReadEntry { k } => More(Task::UndoReadSetpoint { k, d: value }),
        Task::UndoReadSetpoint { k, d } => More(Task::UndoWriteDepth { k, d, a: value }),
        Task::UndoWriteDepth { d, a, .. } => More(Task::UndoWriteSetpoint { d, a }),
        Task::UndoWriteSetpoint { .. } => More(Task::ClearSigner),
        Task::ClearSigner => Ended(Verdict::Done),
        Task::SignReadSetpoint { v } if value != v => Ended(Verdict::SetpointDiffers),
        Task::SignReadSetpoint { .. } => More(Task::SignWriteSigner),
        Task::SignWriteSigner => Ended(Verdict::Done),
    }
}

fn after_trim_reads(a: i64, k: i64, d: i64) -> Next {
    if k == PILE as i64 {
        Next::Ended(Verdict::PileFull)
    } else if a + d > CEILING {
        Next::Ended(Verdict::OverCeiling)
    } else {
        Next::More(Task::TrimWriteEntry { a, k, d })
    }
}

// ---------------------------------------------------------------------------------------------------------------
// The rack
// ---------------------------------------------------------------------------------------------------------------

/// The job of a station that is trying or inside.
#[derive(Clone, Copy, PartialEq, Eq, Hash, Debug)]
pub struct Hand {
    pub job: Job,
    pub task: Task,
}

#[derive(Clone, PartialEq, Eq, Hash, Debug)]
pub struct Station {
    pub hand: Option<Hand>,
    pub count: u16,
    pub last_verdict: Option<Verdict>,
}

#[derive(Clone, PartialEq, Eq, Hash, Debug)]
pub struct Rack {
    pub lock: Lock,
    pub board: Board,
    /// Station i at i - 1.
    pub stations: Vec<Station>,
}

#[derive(Clone, Copy, PartialEq, Eq, Debug)]
pub struct Look {
    pub stage: Stage,
    pub count: u16,
    /// 0 before the first job has ended.
    pub last_verdict: i64,
}

#[derive(Clone, Copy, PartialEq, Eq, Debug)]
pub struct BoardView {
    pub setpoint: i64,
    pub depth: i64,
    pub signer: i64,
    /// 0 if nobody is inside.
    pub inside: u32,
}

impl Rack {
    pub fn set_up(kind: Kind, stations: u32, start: i64) -> Result<Rack, Refusal> {
        Rack::set_up_with_plant(kind, Plant::Nothing, stations, start)
    }

    pub fn set_up_with_plant(kind: Kind, plant: Plant, stations: u32, start: i64) -> Result<Rack, Refusal> {
        if !(1..=MOST_STATIONS).contains(&stations) {
            return Err(Refusal::WrongNumberOfStations);
        }
        if start > CEILING {
            return Err(Refusal::StartAboveCeiling);
        }
        let station = Station { hand: None, count: 0, last_verdict: None };
        Ok(Rack {
            lock: Lock::fresh(kind, plant, stations),
            board: Board::fresh(start),
            stations: vec![station; stations as usize],
        })
    }

    pub fn order(&mut self, i: u32, job: Job) -> Result<(), Refusal> {
        self.must_exist(i)?;
        must_be_in_range(job)?;
        if self.lock.stage(i) != Stage::Rest {
            return Err(Refusal::NotAtRest);
        }
        self.lock.begin(i);
        let station = self.station(i);
        station.hand = Some(Hand { job, task: first_task(job) });
        station.count = 0;
        Ok(())
    }

    pub fn slot(&mut self, i: u32) -> Result<Served, Refusal> {
        self.must_exist(i)?;
        let served = match self.lock.stage(i) {
            Stage::Rest => return Err(Refusal::AtRest),
            Stage::Trying => self.turn_in(i),
            Stage::Inside => self.work(i),
            Stage::Leaving => self.turn_out(i),
        };
        let station = self.station(i);
        station.count = station.count.saturating_add(1);
        Ok(served)
    }

    pub fn look(&self, i: u32) -> Result<Look, Refusal> {
        self.must_exist(i)?;
        let station = &self.stations[i as usize - 1];
        Ok(Look {
            stage: self.lock.stage(i),
            count: station.count,
            last_verdict: station.last_verdict.map_or(0, |verdict| verdict as i64),
        })
    }

    pub fn board(&self) -> BoardView {
        let inside = (1..=self.lock.stations()).find(|&i| self.lock.stage(i) == Stage::Inside);
        BoardView {
            setpoint: self.board.setpoint,
            depth: self.board.depth,
            signer: self.board.signer,
            inside: inside.unwrap_or(0),
        }
    }

    fn turn_in(&mut self, i: u32) -> Served {
        self.lock.turn(i);
        match self.lock.stage(i) {
            Stage::Inside => Served::NowInside,
            _ => Served::StillTrying,
        }
    }

    /// One access of the job.
    fn work(&mut self, i: u32) -> Served {
        let hand = self.station(i).hand.expect("a station inside has a job");
        let value = self.board.make(task_access(hand.task, i));
        match task_next(hand.task, value) {
            Next::More(task) => {
                self.station(i).hand = Some(Hand { task, ..hand });
                Served::MoreToCome
            }
            Next::Ended(verdict) => {
                self.station(i).hand = None;
                self.station(i).last_verdict = Some(verdict);
                self.lock.end(i);
                Served::JobEnded(verdict)
            }
        }
    }

    fn turn_out(&mut self, i: u32) -> Served {
        self.lock.turn(i);
        match self.lock.stage(i) {
            Stage::Rest => Served::NowAtRest,
            _ => Served::StillLeaving,
        }
    }

    fn station(&mut self, i: u32) -> &mut Station {
        &mut self.stations[i as usize - 1]
    }

    fn must_exist(&self, i: u32) -> Result<(), Refusal> {
        if (1..=self.lock.stations()).contains(&i) { Ok(()) } else { Err(Refusal::NoSuchStation) }
    }
}

fn must_be_in_range(job: Job) -> Result<(), Refusal> {
    match job {
        Job::Trim(p) if p == 0 || p.abs() > MOST_PERMILLE => Err(Refusal::TrimOutOfRange),
        Job::Sign(v) if !(0..=CEILING).contains(&v) => Err(Refusal::SignOutOfRange),
        _ => Ok(()),
    }
}

// ---------------------------------------------------------------------------------------------------------------
// The form of a line
// ---------------------------------------------------------------------------------------------------------------

const STATION_WIDTH: usize = 3;
const VALUE_WIDTH: usize = 8;
const LINE_WIDTH: usize = 1 + STATION_WIDTH + VALUE_WIDTH + 1;

/// What may stand in one column.
#[derive(Clone, Copy)]
enum Column {
    Only(u8),
    Digit,
    DigitNotZero,
}

/// A set of texts of one length, column by column. The legal lines of a place are the union of some shapes.
type Shape = Vec<Column>;

fn spaces(count: usize) -> Shape {
    vec![Column::Only(b' '); count]
}

/// A number of so many digits without a leading zero. Zero itself has one digit.
fn digits(count: usize) -> Shape {
    if count == 1 {
        return vec![Column::Digit];
    }
    let mut shape = vec![Column::DigitNotZero];
    shape.extend(vec![Column::Digit; count - 1]);
    shape
}

fn zero(width: usize) -> Vec<Shape> {
    vec![[spaces(width - 1), vec![Column::Only(b'0')]].concat()]
}

fn not_negative(width: usize) -> Vec<Shape> {
    (1..=width).map(|count| [spaces(width - count), digits(count)].concat()).collect()
}

fn negative(width: usize) -> Vec<Shape> {
    let below_zero = |count| {
        let mut number = digits(count);
        number[0] = Column::DigitNotZero;
        [spaces(width - 1 - count), vec![Column::Only(b'-')], number].concat()
    };
    (1..width).map(below_zero).collect()
}

/// The legal lines that begin with this letter.
fn lines_of(letter: u8, values: Vec<Shape>) -> Vec<Shape> {
    let mut lines = Vec::new();
    for station in not_negative(STATION_WIDTH) {
        for value in &values {
            let line = [vec![Column::Only(letter)], station.clone(), value.clone(), vec![Column::Only(b'\n')]];
            lines.push(line.concat());
        }
    }
    lines
}

fn legal_first_lines() -> Vec<Shape> {
    [lines_of(b'F', not_negative(VALUE_WIDTH)), lines_of(b'B', not_negative(VALUE_WIDTH))].concat()
}

fn legal_later_lines() -> Vec<Shape> {
    [
        lines_of(b'T', [not_negative(VALUE_WIDTH), negative(VALUE_WIDTH)].concat()),
        lines_of(b'U', zero(VALUE_WIDTH)),
        lines_of(b'G', not_negative(VALUE_WIDTH)),
        lines_of(b'S', zero(VALUE_WIDTH)),
    ]
    .concat()
}

fn fits(column: Column, byte: u8) -> bool {
    match column {
        Column::Only(one) => byte == one,
        Column::Digit => byte.is_ascii_digit(),
        Column::DigitNotZero => byte.is_ascii_digit() && byte != b'0',
    }
}

/// Whether some legal line begins with these characters.
fn can_be_completed(legal: &[Shape], characters: &[u8]) -> bool {
    let begins_so = |shape: &Shape| characters.iter().zip(shape).all(|(&byte, &column)| fits(column, byte));
    legal.iter().any(begins_so)
}

/// The smallest c such that no legal line begins with the first c characters. A missing character is wrong.
fn wrong_column(legal: &[Shape], text: &[u8]) -> Option<usize> {
    (1..=LINE_WIDTH).find(|&c| match text.get(..c) {
        Some(characters) => !can_be_completed(legal, characters),
        None => true,
    })
}

/// A line of right form.
struct Line {
    letter: u8,
    station: u32,
    value: i64,
}

fn number(field: &[u8]) -> i64 {
    let text = std::str::from_utf8(field).expect("a legal field is ASCII");
    text.trim_start_matches(' ').parse().expect("a legal field is a number")
}

/// Reads the line at the start of the text, or gives its wrong column.
fn read_line(legal: &[Shape], text: &[u8]) -> Result<Line, usize> {
    if let Some(column) = wrong_column(legal, text) {
        return Err(column);
    }
    let value_at = 1 + STATION_WIDTH;
    Ok(Line {
        letter: text[0],
        station: number(&text[1..value_at]) as u32,
        value: number(&text[value_at..value_at + VALUE_WIDTH]),
    })
}

// ---------------------------------------------------------------------------------------------------------------
// The sheet
// ---------------------------------------------------------------------------------------------------------------

pub fn line_text(letter: char, station: usize, value: i64) -> String {
    format!("{letter}{station:STATION_WIDTH$}{value:VALUE_WIDTH$}\n")
}

fn wrong_form(column: usize, line: usize) -> String {
    line_text('X', column, line as i64)
}

fn answer_text(line: &Line, answer: i64) -> String {
    line_text(line.letter as char, line.station as usize, answer)
}

fn closing_lines(rack: &Rack) -> String {
    let board = rack.board();
    [line_text('P', 0, board.setpoint), line_text('D', 0, board.depth), line_text('W', 0, board.signer)].concat()
}

fn set_up_by(line: &Line) -> Result<Rack, Refusal> {
    let kind = if line.letter == b'F' { Kind::Fast } else { Kind::OneBit };
    Rack::set_up(kind, line.station, line.value)
}

/// Makes the call of a later line and gives its answer.
fn call(rack: &mut Rack, line: &Line) -> i64 {
    let made = match line.letter {
        b'T' => rack.order(line.station, Job::Trim(line.value)).map(|()| 0),
        b'U' => rack.order(line.station, Job::Undo).map(|()| 0),
        b'G' => rack.order(line.station, Job::Sign(line.value)).map(|()| 0),
        b'S' => rack.slot(line.station).map(Served::number),
        _ => unreachable!("no other letter is legal after line 1"),
    };
    made.unwrap_or_else(|refusal| refusal as i64)
}

/// The whole output for a sheet. Of a sheet that is too long, one byte too many is enough.
pub fn answers(sheet: &[u8]) -> String {
    if sheet.len() > MOST_BYTES {
        return wrong_form(0, 0);
    }
    let first = match read_line(&legal_first_lines(), sheet) {
        Ok(line) => line,
        Err(column) => return wrong_form(column, 1),
    };
    match set_up_by(&first) {
        Ok(rack) => answer_text(&first, 0) + &later_answers(rack, &sheet[LINE_WIDTH..]),
        Err(refusal) => answer_text(&first, refusal as i64),
    }
}

fn later_answers(mut rack: Rack, mut text: &[u8]) -> String {
    let legal = legal_later_lines();
    let mut output = String::new();
    let mut line_number = 2;
    while !text.is_empty() {
        match read_line(&legal, text) {
            Ok(line) => output += &answer_text(&line, call(&mut rack, &line)),
            Err(column) => return output + &wrong_form(column, line_number),
        }
        text = &text[LINE_WIDTH..];
        line_number += 1;
    }
    output + &closing_lines(&rack)
}

/// Takes at most one byte past the limit from standard input. No buffer of the library reads ahead.
fn read_sheet() -> io::Result<Vec<u8>> {
    let input = File::from(io::stdin().as_fd().try_clone_to_owned()?);
    let mut sheet = Vec::new();
    input.take(MOST_BYTES as u64 + 1).read_to_end(&mut sheet)?;
    Ok(sheet)
}

fn answer_standard_input() -> io::Result<()> {
    let sheet = read_sheet()?;
    io::stdout().write_all(answers(&sheet).as_bytes())?;
    io::stdout().flush()
}

pub fn main() -> ExitCode {
    match answer_standard_input() {
        Ok(()) => ExitCode::SUCCESS,
        Err(error) => {
            eprintln!("rack: {error}");
            ExitCode::FAILURE
        }
    }
}
