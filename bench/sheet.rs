//! The sheet program once more, over the rack of the second program, for speed: it goes over each line once, where the
//! second program, which is meant to be read, holds each line against the shapes of all legal ones.

use std::io::{self, Read, Write};

#[allow(dead_code)]
#[path = "../reference/rack.rs"]
mod rack;

use rack::{Job, Kind, Rack, Refusal, Served, MOST_BYTES};

const LINE: usize = 13;

/// Which numbers a value field takes.
#[derive(Clone, Copy, PartialEq)]
enum Range {
    Zero,
    NotNegative,
    Any,
}

/// A number at the right edge of its field, or the column that is wrong.
fn field(text: &[u8], at: usize, width: usize, range: Range) -> Result<i64, usize> {
    let (mut negative, mut digits, mut value) = (false, false, 0);
    for column in at..at + width {
        let last = column + 1 == at + width;
        match text.get(column) {
            Some(b' ') if !digits && !negative && !last => {}
            Some(b'-') if range == Range::Any && !digits && !negative && !last => negative = true,
            Some(b'0') if digits || (last && !negative) => value *= 10,
            Some(digit @ b'1'..=b'9') if range != Range::Zero => {
                digits = true;
                value = value * 10 + i64::from(digit - b'0');
            }
            _ => return Err(column + 1),
        }
    }
    Ok(if negative { -value } else { value })
}

/// The station field and the value field of the line at the start of the text.
fn fields(text: &[u8], range: Range) -> Result<(u32, i64), usize> {
    let station = field(text, 1, 3, Range::NotNegative)?;
    let value = field(text, 4, 8, range)?;
    match text.get(12) {
        Some(b'\n') => Ok((station as u32, value)),
        _ => Err(13),
    }
}

fn read_set_up(text: &[u8]) -> Result<(Kind, u32, i64), usize> {
    let kind = match text.first() {
        Some(b'F') => Kind::Fast,
        Some(b'B') => Kind::OneBit,
        _ => return Err(1),
    };
    let (stations, start) = fields(text, Range::NotNegative)?;
    Ok((kind, stations, start))
}

enum Call {
    Order(Job),
    Slot,
}

fn read_call(text: &[u8]) -> Result<(u32, Call), usize> {
    let range = match text.first() {
        Some(b'T') => Range::Any,
        Some(b'G') => Range::NotNegative,
        Some(b'U' | b'S') => Range::Zero,
        _ => return Err(1),
    };
    let (station, value) = fields(text, range)?;
    let call = match text[0] {
        b'T' => Call::Order(Job::Trim(value)),
        b'G' => Call::Order(Job::Sign(value)),
        b'U' => Call::Order(Job::Undo),
        _ => Call::Slot,
    };
    Ok((station, call))
}

fn made(rack: &mut Rack, station: u32, call: Call) -> i64 {
    let answer = match call {
        Call::Order(job) => rack.order(station, job).map(|()| 0),
        Call::Slot => rack.slot(station).map(Served::number),
    };
    answer.unwrap_or_else(|refusal: Refusal| refusal as i64)
}

/// Puts a number at the right edge of its field. No answer is negative.
fn put(field: &mut [u8], mut number: i64) {
    for column in field.iter_mut().rev() {
        *column = b'0' + (number % 10) as u8;
        number /= 10;
        if number == 0 {
            break;
        }
    }
}

fn write_line(output: &mut Vec<u8>, letter: u8, station: usize, value: i64) {
    let mut line = [b' '; LINE];
    line[0] = letter;
    put(&mut line[1..4], station as i64);
    put(&mut line[4..12], value);
    line[12] = b'\n';
    output.extend_from_slice(&line);
}

fn answer_later(mut rack: Rack, mut text: &[u8], output: &mut Vec<u8>) {
    let mut line = 2;
    while !text.is_empty() {
        match read_call(text) {
            Ok((station, call)) => write_line(output, text[0], station as usize, made(&mut rack, station, call)),
            Err(column) => return write_line(output, b'X', column, line),
        }
        text = &text[LINE..];
        line += 1;
    }
    let board = rack.board();
    write_line(output, b'P', 0, board.setpoint);
    write_line(output, b'D', 0, board.depth);
    write_line(output, b'W', 0, board.signer);
}

fn answer(sheet: &[u8], output: &mut Vec<u8>) {
    if sheet.len() > MOST_BYTES {
        return write_line(output, b'X', 0, 0);
    }
    let (kind, stations, start) = match read_set_up(sheet) {
        Ok(set_up) => set_up,
        Err(column) => return write_line(output, b'X', column, 1),
    };
    match Rack::set_up(kind, stations, start) {
        Ok(rack) => {
            write_line(output, sheet[0], stations as usize, 0);
            answer_later(rack, &sheet[LINE..], output);
        }
        Err(refusal) => write_line(output, sheet[0], stations as usize, refusal as i64),
    }
}

fn main() -> io::Result<()> {
    let mut sheet = Vec::new();
    io::stdin().take(MOST_BYTES as u64 + 1).read_to_end(&mut sheet)?;
    let mut output = Vec::with_capacity(sheet.len());
    answer(&sheet, &mut output);
    io::stdout().write_all(&output)
}
