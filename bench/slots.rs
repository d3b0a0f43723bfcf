//! The slots of crates/slots/src/main.rt, made on the rack of the second program, and the same checksum.
//!
//! The lock's own functions are private there, so the turns of a lock alone are not measured in Rust.

use std::env;
use std::process::ExitCode;

#[allow(dead_code)]
#[path = "../reference/rack.rs"]
mod rack;

use rack::{Job, Kind, Rack, Served};

const START: i64 = 200_000;
const PERMILLE: i64 = 33;
const USAGE: &str = "slots fast|one-bit N idle|contended|calls COUNT";

#[derive(Clone, Copy)]
enum Work {
    Slots,
    Calls,
}

#[derive(Clone, Copy)]
struct Crew {
    first: u32,
    last: u32,
}

impl Crew {
    fn alone(n: u32) -> Crew {
        let middle = n / 2 + 1;
        Crew { first: middle, last: middle }
    }

    fn all(n: u32) -> Crew {
        Crew { first: 1, last: n }
    }

    fn after(self, station: u32) -> u32 {
        if station < self.last { station + 1 } else { self.first }
    }
}

fn mixed(sum: u64, answer: u64) -> u64 {
    sum.wrapping_mul(31).wrapping_add(answer)
}

fn job_after(job: Job) -> Job {
    match job {
        Job::Trim(_) => Job::Undo,
        Job::Undo => Job::Sign(START),
        Job::Sign(_) => Job::Trim(PERMILLE),
    }
}

fn order(rack: &mut Rack, station: u32, job: &mut Job) -> u64 {
    let answer = match rack.order(station, *job) {
        Ok(()) => 0,
        Err(refusal) => refusal as u64,
    };
    *job = job_after(*job);
    answer
}

fn order_all(rack: &mut Rack, crew: Crew, job: &mut Job) -> u64 {
    (crew.first..=crew.last).fold(0, |sum, station| mixed(sum, order(rack, station, job)))
}

fn serve(rack: &mut Rack, station: u32, job: &mut Job) -> u64 {
    match rack.slot(station) {
        Ok(Served::NowAtRest) => {
            let answer = Served::NowAtRest.number() as u64;
            answer.wrapping_add(order(rack, station, job))
        }
        Ok(served) => served.number() as u64,
        Err(refusal) => refusal as u64,
    }
}

fn shown(rack: &Rack, station: u32) -> u64 {
    let seen = match rack.look(station) {
        Ok(seen) => (seen.stage as u64).wrapping_add(seen.count as u64).wrapping_add(seen.last_verdict as u64),
        Err(refusal) => refusal as u64,
    };
    let view = rack.board();
    seen.wrapping_add(view.setpoint.unsigned_abs())
        .wrapping_add(view.depth.unsigned_abs())
        .wrapping_add(view.signer.unsigned_abs())
        .wrapping_add(view.inside as u64)
}

fn slots(rack: &mut Rack, crew: Crew, count: u64) -> u64 {
    let mut job = Job::Trim(PERMILLE);
    let mut sum = order_all(rack, crew, &mut job);
    let mut station = crew.first;
    for _ in 0..count {
        sum = mixed(sum, serve(rack, station, &mut job));
        station = crew.after(station);
    }
    sum
}

fn calls(rack: &mut Rack, crew: Crew, count: u64) -> u64 {
    let mut job = Job::Trim(PERMILLE);
    let mut sum = order_all(rack, crew, &mut job);
    let mut station = crew.first;
    for _ in 0..count {
        sum = mixed(sum, serve(rack, station, &mut job));
        sum = mixed(sum, shown(rack, station));
        station = crew.after(station);
    }
    sum
}

fn sum_of(args: &[String]) -> Option<u64> {
    let [_, kind, n, mode, count] = args else { return None };
    let kind = match kind.as_str() {
        "fast" => Kind::Fast,
        "one-bit" => Kind::OneBit,
        _ => return None,
    };
    let n = n.parse().ok()?;
    let (work, crew) = match mode.as_str() {
        "idle" => (Work::Slots, Crew::alone(n)),
        "contended" => (Work::Slots, Crew::all(n)),
        "calls" => (Work::Calls, Crew::all(n)),
        _ => return None,
    };
    let count = count.parse().ok()?;
    let mut rack = Rack::set_up(kind, n, START).ok()?;
    Some(match work {
        Work::Slots => slots(&mut rack, crew, count),
        Work::Calls => calls(&mut rack, crew, count),
    })
}

fn main() -> ExitCode {
    let args: Vec<String> = env::args().collect();
    match sum_of(&args) {
        Some(sum) => {
            println!("{sum}");
            ExitCode::SUCCESS
        }
        None => {
            eprintln!("{USAGE}");
            ExitCode::FAILURE
        }
    }
}
