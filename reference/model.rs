//! Walks through every state that small racks can reach, whatever the order of orders and slots, and checks each.
//!
//! The walk goes by levels: all states after one move, then all after two, and so on. So the first fault met
//! has a shortest run, and that run is printed.

#[path = "rack.rs"]
#[allow(dead_code)]
mod rack;

use rack::{difference, Board, Job, Kind, Place, Plant, Rack, Refusal, Served, Stage, Verdict};
use rack::{CEILING, PILE};
use std::collections::{HashSet, VecDeque};
use std::hash::{Hash, Hasher};
use std::process::ExitCode;
use std::time::Instant;

// ---------------------------------------------------------------------------------------------------------------
// What is walked through
// ---------------------------------------------------------------------------------------------------------------

/// A job that a station may be ordered whenever it rests.
#[derive(Clone, Copy)]
enum Item {
    Trim(i64),
    Undo,
    /// Sign what the board shows as setpoint when the order is given.
    SignPresent,
}

#[derive(Clone)]
struct Scene {
    title: String,
    kind: Kind,
    plant: Plant,
    start: i64,
    /// Station 1 does these jobs alone, before the walk begins.
    first: Vec<Job>,
    /// The menu of station i at i - 1.
    menus: Vec<Vec<Item>>,
}

impl Scene {
    fn stations(&self) -> u32 {
        self.menus.len() as u32
    }
}

/// From 333,334 a trim of 200 leads to 400,000, and a second one is over the ceiling. So the pile stays at 0 or 1
/// without any limit on the orders, and the verdicts 1, 3, 4 and 5 all occur.
const START: i64 = 333_334;
const ALL_JOBS: [Item; 3] = [Item::Trim(200), Item::Undo, Item::SignPresent];

fn scene(kind: Kind, jobs: &str, menus: Vec<Vec<Item>>) -> Scene {
    let lock = match kind {
        Kind::Fast => "fast",
        Kind::OneBit => "one-bit",
    };
    let title = format!("{lock} lock, {} stations, {jobs}", menus.len());
    Scene { title, kind, plant: Plant::Nothing, start: START, first: Vec::new(), menus }
}

/// Every station may be ordered any job at any time.
fn any_job(kind: Kind, stations: usize) -> Scene {
    scene(kind, "any job for any station", vec![ALL_JOBS.to_vec(); stations])
}

/// 63 entries lie on the pile, and there is no undo. So there is room for one more trim, and then verdict 2 occurs.
fn full_pile(kind: Kind) -> Scene {
    let menus = vec![vec![Item::Trim(-1), Item::SignPresent]; 2];
    Scene { start: 300_000, first: vec![Job::Trim(-1); PILE - 1], ..scene(kind, "the pile filling up", menus) }
}

/// One station trims, one undoes and one signs, in all six ways to deal this out.
fn one_job_each(kind: Kind) -> Vec<Scene> {
    let [trim, undo, sign] = ALL_JOBS;
    let deals = [
        ("trim, undo, sign", [trim, undo, sign]),
        ("trim, sign, undo", [trim, sign, undo]),
        ("undo, trim, sign", [undo, trim, sign]),
        ("undo, sign, trim", [undo, sign, trim]),
        ("sign, trim, undo", [sign, trim, undo]),
        ("sign, undo, trim", [sign, undo, trim]),
    ];
    deals.iter().map(|(name, deal)| scene(kind, name, deal.iter().map(|&item| vec![item]).collect())).collect()
}

fn right_scenes() -> Vec<Scene> {
    let mut scenes = Vec::new();
    for kind in [Kind::OneBit, Kind::Fast] {
        scenes.push(any_job(kind, 2));
        scenes.push(full_pile(kind));
    }
    scenes.push(any_job(Kind::OneBit, 3));
    scenes.extend(one_job_each(Kind::Fast));
    scenes
}

/// Some minutes and about 2 GB.
fn long_scenes() -> Vec<Scene> {
    vec![any_job(Kind::Fast, 3)]
}

fn planted_scenes() -> Vec<Scene> {
    let mut scenes = Vec::new();
    for (kind, plant) in [(Kind::OneBit, Plant::NoRaise), (Kind::Fast, Plant::NoScan)] {
        for stations in [2, 3] {
            let menus = vec![vec![Item::SignPresent]; stations];
            scenes.push(Scene { plant, ..scene(kind, &format!("planted {plant:?}"), menus) });
        }
    }
    scenes
}

// ---------------------------------------------------------------------------------------------------------------
// States and moves
// ---------------------------------------------------------------------------------------------------------------

/// The ledger is a second board, on which each finished job is done whole.
#[derive(Clone, Hash)]
struct State {
    rack: Rack,
    ledger: Board,
}

#[derive(Clone, Copy)]
enum Move {
    Order(u32, Job),
    Slot(u32),
}

/// What is wrong, in words.
type Fault = String;

fn beginning(scene: &Scene) -> State {
    let set_up = Rack::set_up_with_plant(scene.kind, scene.plant, scene.stations(), scene.start);
    let mut rack = set_up.expect("the scene is within the ranges");
    for &job in &scene.first {
        rack.order(1, job).expect("station 1 rests");
        while rack.slot(1) != Ok(Served::NowAtRest) {}
    }
    forget_records(&mut rack);
    let ledger = rack.board.clone();
    State { rack, ledger }
}

/// Counts and last verdicts steer nothing. They are put back so that the states stay few.
fn forget_records(rack: &mut Rack) {
    for station in &mut rack.stations {
        station.count = 0;
        station.last_verdict = None;
    }
}

fn stage(rack: &Rack, i: u32) -> Stage {
    rack.look(i).expect("the station exists").stage
}

fn moves(scene: &Scene, state: &State) -> Vec<Move> {
    let mut moves = Vec::new();
    for i in 1..=scene.stations() {
        if stage(&state.rack, i) != Stage::Rest {
            moves.push(Move::Slot(i));
            continue;
        }
        for item in &scene.menus[i as usize - 1] {
            let job = match *item {
                Item::Trim(p) => Job::Trim(p),
                Item::Undo => Job::Undo,
                Item::SignPresent => Job::Sign(state.rack.board().setpoint),
            };
            moves.push(Move::Order(i, job));
        }
    }
    moves
}

/// Makes the move and checks what it answers and alters.
fn make(scene: &Scene, state: &State, the_move: Move) -> Result<State, Fault> {
    let mut after = state.clone();
    match the_move {
        Move::Order(i, job) => {
            let answer = after.rack.order(i, job);
            check(answer.is_ok(), || format!("an order for resting station {i} is refused"))?;
            check(after.rack.board == state.rack.board, || "an order has altered the board".into())?;
            check_stages(scene, state, &after, i, (Stage::Rest, Stage::Trying))?;
        }
        Move::Slot(i) => {
            let hand = after.rack.stations[i as usize - 1].hand;
            let served = after.rack.slot(i).map_err(|_| format!("a slot for busy station {i} is refused"))?;
            check_stages(scene, state, &after, i, stages_told_by(served))?;
            check(after.rack.look(i).unwrap().count == 1, || format!("the slot of station {i} is not counted"))?;
            if let Served::JobEnded(verdict) = served {
                let job = hand.expect("a station inside has a job").job;
                let whole = do_whole(&mut after.ledger, i, job);
                check(whole == verdict, || format!("verdict {verdict:?}, but done whole {whole:?}"))?;
            }
        }
    }
    check_leaving(scene, state, &after, the_move)?;
    forget_records(&mut after.rack);
    Ok(after)
}

/// The stages before and after a slot with this answer.
fn stages_told_by(served: Served) -> (Stage, Stage) {
    match served {
        Served::StillTrying => (Stage::Trying, Stage::Trying),
        Served::NowInside => (Stage::Trying, Stage::Inside),
        Served::MoreToCome => (Stage::Inside, Stage::Inside),
        Served::JobEnded(_) => (Stage::Inside, Stage::Leaving),
        Served::StillLeaving => (Stage::Leaving, Stage::Leaving),
        Served::NowAtRest => (Stage::Leaving, Stage::Rest),
    }
}

/// The effect of a job in one piece, by the table of jobs done whole.
fn do_whole(board: &mut Board, i: u32, job: Job) -> Verdict {
    let depth = board.depth as usize;
    match job {
        Job::Trim(_) if depth == PILE => return Verdict::PileFull,
        Job::Trim(p) if board.setpoint + difference(board.setpoint, p) > CEILING => return Verdict::OverCeiling,
        Job::Trim(p) => {
            let d = difference(board.setpoint, p);
            board.entries[depth] = d;
            board.depth += 1;
            board.setpoint += d;
            board.signer = 0;
        }
        Job::Undo if depth == 0 => return Verdict::NothingToUndo,
        Job::Undo => {
            board.depth -= 1;
            board.setpoint -= board.entries[depth - 1];
            board.signer = 0;
        }
        Job::Sign(v) if board.setpoint != v => return Verdict::SetpointDiffers,
        Job::Sign(_) => board.signer = i as i64,
    }
    Verdict::Done
}

// ---------------------------------------------------------------------------------------------------------------
// What is checked at every move
// ---------------------------------------------------------------------------------------------------------------

fn check(right: bool, words: impl Fn() -> Fault) -> Result<(), Fault> {
    if right { Ok(()) } else { Err(words()) }
}

/// Station i goes from one stage to the next as told. No other station changes its stage.
fn check_stages(scene: &Scene, before: &State, after: &State, i: u32, told: (Stage, Stage)) -> Result<(), Fault> {
    for j in 1..=scene.stations() {
        let went = (stage(&before.rack, j), stage(&after.rack, j));
        let right = if j == i { went == told } else { went.0 == went.1 };
        check(right, || format!("station {j} went from {:?} to {:?}", went.0, went.1))?;
    }
    Ok(())
}

/// Turns of its own that a station still needs to change its stage, if it alone is served. None if above the limit.
fn turns_left(rack: &Rack, i: u32, limit: u32) -> Option<u32> {
    let mut rack = rack.clone();
    let from = stage(&rack, i);
    for turn in 1..=limit {
        rack.slot(i).ok()?;
        if stage(&rack, i) != from {
            return Some(turn);
        }
    }
    None
}

fn leaving_left(state: &State, i: u32) -> Option<u32> {
    turns_left(&state.rack, i, state.rack.lock.leave_number())
}

/// A leaving station comes nearer to rest by its own slot, and is never put further from it.
fn check_leaving(scene: &Scene, before: &State, after: &State, the_move: Move) -> Result<(), Fault> {
    for j in 1..=scene.stations() {
        if stage(&before.rack, j) != Stage::Leaving || stage(&after.rack, j) != Stage::Leaving {
            continue;
        }
        let (was, is) = (leaving_left(before, j), leaving_left(after, j));
        let own = matches!(the_move, Move::Slot(i) if i == j);
        check(if own { is < was } else { is <= was }, || format!("station {j} is no nearer to rest"))?;
    }
    Ok(())
}

// ---------------------------------------------------------------------------------------------------------------
// What is checked in every state
// ---------------------------------------------------------------------------------------------------------------

#[derive(Default)]
struct Longest {
    lone: u32,
    leave: u32,
}

fn check_state(scene: &Scene, state: &State, longest: &mut Longest) -> Result<(), Fault> {
    let all = 1..=scene.stations();
    let inside: Vec<u32> = all.clone().filter(|&i| stage(&state.rack, i) == Stage::Inside).collect();
    check(inside.len() <= 1, || format!("stations {inside:?} are inside together"))?;
    check_board(scene, state, &inside)?;
    for i in all {
        check_progress(scene, state, i, longest)?;
    }
    check_refusals(scene, &state.rack)
}

fn check_board(scene: &Scene, state: &State, inside: &[u32]) -> Result<(), Fault> {
    let board = state.rack.board();
    check((0..=CEILING).contains(&board.setpoint), || format!("the setpoint is {}", board.setpoint))?;
    check((0..=PILE as i64).contains(&board.depth), || format!("the depth is {}", board.depth))?;
    check((0..=scene.stations() as i64).contains(&board.signer), || format!("the signer is {}", board.signer))?;
    check(board.inside == inside.first().copied().unwrap_or(0), || format!("board shows {} inside", board.inside))?;
    let agrees = state.rack.board.agrees_with(&state.ledger);
    check(agrees || !inside.is_empty(), || "nobody is inside, and the board differs from the ledger".into())
}

fn check_progress(scene: &Scene, state: &State, i: u32, longest: &mut Longest) -> Result<(), Fault> {
    let rack = &state.rack;
    let alone = (1..=scene.stations()).all(|j| j == i || stage(rack, j) == Stage::Rest);
    match stage(rack, i) {
        Stage::Trying if alone => {
            let turns = turns_left(rack, i, rack.lock.lone_number());
            longest.lone = longest.lone.max(turns.unwrap_or(0));
            check(turns.is_some(), || format!("station {i} is alone and not inside after its lone number of turns"))
        }
        Stage::Leaving => {
            let turns = leaving_left(state, i);
            longest.leave = longest.leave.max(turns.unwrap_or(0));
            check(turns.is_some(), || format!("station {i} is not at rest after its leave number of turns"))
        }
        Stage::Rest if alone => check_exact_cost(rack, i),
        _ => Ok(()),
    }
}

/// All stations rest. Station i, ordered now and served alone, is inside and at rest with exactly the turns given.
fn check_exact_cost(rack: &Rack, i: u32) -> Result<(), Fault> {
    let mut rack = rack.clone();
    let (entry, leave) = (rack.lock.exact_entry(), rack.lock.leave_number());
    rack.order(i, Job::Sign(rack.board().setpoint)).map_err(|_| format!("station {i} takes no order"))?;
    let mut answers = vec![10; entry as usize - 1];
    answers.extend([11, 12, 21]);
    answers.extend(vec![13; leave as usize - 1]);
    answers.push(14);
    for answer in answers {
        let got = rack.slot(i).map(Served::number);
        check(got == Ok(answer), || format!("alone from rest, station {i} answers {got:?} in place of {answer}"))?;
    }
    Ok(())
}

/// Calls that must be refused are refused and leave the rack as it was.
fn check_refusals(scene: &Scene, rack: &Rack) -> Result<(), Fault> {
    let mut copy = rack.clone();
    let above = scene.stations() + 1;
    let mut right = copy.slot(0) == Err(Refusal::NoSuchStation)
        && copy.order(above, Job::Undo) == Err(Refusal::NoSuchStation);
    for i in 1..=scene.stations() {
        right &= if stage(rack, i) == Stage::Rest {
            copy.slot(i) == Err(Refusal::AtRest)
        } else {
            copy.order(i, Job::Undo) == Err(Refusal::NotAtRest)
        };
        right &= copy.order(i, Job::Trim(0)) == Err(Refusal::TrimOutOfRange);
    }
    check(right && copy == *rack, || "a call should be refused without effect, and is not".into())
}

// ---------------------------------------------------------------------------------------------------------------
// The walk
// ---------------------------------------------------------------------------------------------------------------

/// Writes down what a state tells its hasher: all its parts, with the length of each list. Hence unequal states
/// have unequal records. Runs of zeros are shortened to a zero and their length.
#[derive(Default)]
struct Record {
    bytes: Vec<u8>,
    zeros: u8,
}

impl Record {
    fn of(state: &State) -> Box<[u8]> {
        let mut record = Record::default();
        state.hash(&mut record);
        record.end_zeros();
        record.bytes.into_boxed_slice()
    }

    fn end_zeros(&mut self) {
        if self.zeros > 0 {
            self.bytes.extend([0, self.zeros]);
            self.zeros = 0;
        }
    }
}

impl Hasher for Record {
    fn write(&mut self, bytes: &[u8]) {
        for &byte in bytes {
            if byte == 0 && self.zeros < u8::MAX {
                self.zeros += 1;
                continue;
            }
            self.end_zeros();
            if byte == 0 { self.zeros = 1 } else { self.bytes.push(byte) }
        }
    }

    fn finish(&self) -> u64 {
        unreachable!("the record is used, not its number")
    }
}

/// Where a state was first met: after which state, by which move.
type Origin = Option<(usize, Move)>;

struct Walk<'a> {
    scene: &'a Scene,
    seen: HashSet<Box<[u8]>>,
    /// One for each state seen, in the order of meeting.
    origins: Vec<Origin>,
    /// States whose moves have not been made yet.
    waiting: VecDeque<(usize, State)>,
    moves: usize,
    longest: Longest,
}

impl Walk<'_> {
    fn new(scene: &Scene) -> Walk<'_> {
        Walk {
            scene,
            seen: HashSet::new(),
            origins: Vec::new(),
            waiting: VecDeque::new(),
            moves: 0,
            longest: Longest::default(),
        }
    }

    /// Takes note of a state and checks it, if it is new.
    fn meet(&mut self, state: State, origin: Origin) -> Result<(), Fault> {
        if !self.seen.insert(Record::of(&state)) {
            return Ok(());
        }
        let number = self.origins.len();
        self.origins.push(origin);
        check_state(self.scene, &state, &mut self.longest)?;
        self.waiting.push_back((number, state));
        Ok(())
    }

    fn run_to(&self, mut origin: Origin) -> Vec<Move> {
        let mut run = Vec::new();
        while let Some((before, the_move)) = origin {
            run.push(the_move);
            origin = self.origins[before];
        }
        run.reverse();
        run
    }

    /// Goes on until nothing is waiting. A fault comes with the moves that lead to it.
    fn go(&mut self) -> Result<(), (Fault, Vec<Move>)> {
        self.meet(beginning(self.scene), None).map_err(|fault| (fault, Vec::new()))?;
        while let Some((number, state)) = self.waiting.pop_front() {
            for the_move in moves(self.scene, &state) {
                self.moves += 1;
                let origin = Some((number, the_move));
                let made = make(self.scene, &state, the_move).and_then(|after| self.meet(after, origin));
                made.map_err(|fault| (fault, self.run_to(origin)))?;
            }
        }
        Ok(())
    }
}

// ---------------------------------------------------------------------------------------------------------------
// The report
// ---------------------------------------------------------------------------------------------------------------

/// What the station's next slot is for.
fn place_name(rack: &Rack, i: u32) -> String {
    let name = match rack.lock.place(i) {
        Place::Rest => "at rest".to_string(),
        Place::Inside => "inside".to_string(),
        Place::Trying(rack::Step::OneBit(step)) | Place::Leaving(rack::Step::OneBit(step)) => format!("{step:?}"),
        Place::Trying(rack::Step::Fast(step)) | Place::Leaving(rack::Step::Fast(step)) => format!("{step:?}"),
    };
    name.replace('(', " ").replace(')', "")
}

fn print_run(scene: &Scene, run: &[Move]) {
    let mut rack = beginning(scene).rack;
    for (number, the_move) in run.iter().enumerate() {
        match *the_move {
            Move::Order(i, job) => {
                let answer = rack.order(i, job).map_or_else(|refusal| refusal as i64, |()| 0);
                println!("{:5}  order  station {i}  {:<14} answer {answer}", number + 1, format!("{job:?}"));
            }
            Move::Slot(i) => {
                let place = place_name(&rack, i);
                let answer = rack.slot(i).map_or_else(|refusal| refusal as i64, Served::number);
                println!("{:5}  slot   station {i}  {place:<14} answer {answer}", number + 1);
            }
        }
    }
}

/// Walks through one scene and tells whether a fault was found.
fn report(scene: &Scene) -> bool {
    let begun = Instant::now();
    let mut walk = Walk::new(scene);
    let found = walk.go();
    let (states, moves) = (walk.origins.len(), walk.moves);
    println!("{}: {states} states, {moves} moves, {:.1} s", scene.title, begun.elapsed().as_secs_f64());
    if let Err((fault, run)) = &found {
        println!("  FAULT after {} moves, none is shorter: {fault}", run.len());
        print_run(scene, run);
        return true;
    }
    let lock = beginning(scene).rack.lock;
    println!(
        "  nothing found; longest lone way in {} of {} turns, longest way out {} of {}",
        walk.longest.lone,
        lock.lone_number(),
        walk.longest.leave,
        lock.leave_number()
    );
    false
}

/// Walks through scenes that should have a fault (or none) and tells whether it was so in all of them.
fn all_as_expected(scenes: &[Scene], fault_expected: bool) -> bool {
    let as_expected: Vec<bool> = scenes.iter().map(|scene| report(scene) == fault_expected).collect();
    as_expected.iter().all(|&right| right)
}

fn main() -> ExitCode {
    let words: Vec<String> = std::env::args().skip(1).collect();
    let good = match words.iter().map(String::as_str).collect::<Vec<_>>()[..] {
        [] => all_as_expected(&right_scenes(), false),
        ["--long"] => all_as_expected(&long_scenes(), false),
        ["--planted"] => all_as_expected(&planted_scenes(), true),
        _ => {
            eprintln!("usage: model [--long | --planted]");
            false
        }
    };
    if good { ExitCode::SUCCESS } else { ExitCode::FAILURE }
}
