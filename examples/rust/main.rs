//! Reads a sheet from standard input and writes its output to standard output, through the library for C, behind a safe function.
//! Before that it tries that function on sheets of its own.

use std::fmt;
use std::io::{self, Read, Write};
use std::process::ExitCode;

/// The functions of `include/setpoint_rack.h`.
mod c {
    unsafe extern "C" {
        pub fn setpoint_answer(
            sheet: *const u8,
            sheet_length: usize,
            buffer: *mut u8,
            buffer_length: usize,
            output_length: *mut usize,
        ) -> u32;
        pub safe fn setpoint_output_bound(sheet_length: usize) -> usize;
        pub safe fn setpoint_longest_sheet() -> usize;
        pub safe fn setpoint_trim_difference(setpoint: i32, permille: i32) -> i32;
    }
}

/// Why a sheet was given no output.
#[derive(Clone, Copy, PartialEq, Eq, Debug)]
enum AnswerError {
    /// The buffer is smaller than the output, which has that many bytes.
    TooSmall {
        needed: usize,
    },
    NoMemory,
    /// A number that the library does not give.
    Unknown(u32),
}

impl fmt::Display for AnswerError {
    fn fmt(&self, f: &mut fmt::Formatter<'_>) -> fmt::Result {
        match self {
            AnswerError::TooSmall { needed } => write!(f, "the output has {needed} bytes"),
            AnswerError::NoMemory => write!(f, "no memory for the answers"),
            AnswerError::Unknown(number) => write!(f, "unknown outcome {number}"),
        }
    }
}

impl std::error::Error for AnswerError {}

/// Answers a sheet into a buffer; the output is its first bytes, as many as are returned.
fn answer_into(sheet: &[u8], buffer: &mut [u8]) -> Result<usize, AnswerError> {
    let mut length = 0;
    // SAFETY: both slices and the length are references, so they are valid and do not overlap, and nobody else writes them.
    let number = unsafe {
        c::setpoint_answer(
            sheet.as_ptr(),
            sheet.len(),
            buffer.as_mut_ptr(),
            buffer.len(),
            &mut length,
        )
    };
    match number {
        0 => Ok(length),
        1 => Err(AnswerError::TooSmall { needed: length }),
        2 => Err(AnswerError::NoMemory),
        other => Err(AnswerError::Unknown(other)),
    }
}

/// The output of a sheet.
fn answer(sheet: &[u8]) -> Result<Vec<u8>, AnswerError> {
    let mut buffer = vec![0; c::setpoint_output_bound(sheet.len())];
    let length = answer_into(sheet, &mut buffer)?;
    buffer.truncate(length);
    Ok(buffer)
}

/// What is expected of a sheet, and what came.
fn expect(sheet: &[u8], output: &[u8]) -> Result<(), String> {
    match answer(sheet) {
        Ok(came) if came == output => Ok(()),
        came => Err(format!(
            "{:?} gave {came:?}",
            String::from_utf8_lossy(sheet)
        )),
    }
}

const SHEET: &[u8] = b"B  1  200000\nU  1       0\nS  1       0\n";
const OUTPUT: &[u8] =
    b"B  1       0\nU  1       0\nS  1      11\nP  0  200000\nD  0       0\nW  0       0\n";

fn sheets_are_answered() -> Result<(), String> {
    expect(SHEET, OUTPUT)?;
    expect(b"", b"X  1       1\n")?;
    expect(b"F 17  200000\n", b"F 17       1\n")?;
    expect(b"F  1  400001\nX", b"F  1       2\n")?;
    expect(
        b"B  1  200000\nS  1       1\n",
        b"B  1       0\nX 12       2\n",
    )?;
    expect(
        &vec![b'B'; c::setpoint_longest_sheet() + 1],
        b"X  0       0\n",
    )
}

/// With a byte too little nothing is written; with a byte too many that byte is left.
fn buffers_are_kept_to() -> Result<(), String> {
    let mut small = vec![0xA5; OUTPUT.len() - 1];
    let refused = answer_into(SHEET, &mut small);
    let needed = OUTPUT.len();
    if refused != Err(AnswerError::TooSmall { needed }) || small.iter().any(|byte| *byte != 0xA5) {
        return Err(format!("a buffer of {} bytes: {refused:?}", small.len()));
    }
    let mut large = vec![0xA5; needed + 1];
    let written = answer_into(SHEET, &mut large);
    if written != Ok(needed) || large[..needed] != *OUTPUT || large[needed] != 0xA5 {
        return Err(format!("a buffer of {} bytes: {written:?}", large.len()));
    }
    Ok(())
}

/// The fraction is dropped towards zero, on both sides of it.
fn trims_are_shown() -> Result<(), String> {
    for (setpoint, permille, difference) in [
        (199_999, 33, 6_599),
        (199_999, -33, -6_599),
        (19, 50, 0),
        (400_000, 200, 80_000),
    ] {
        let came = c::setpoint_trim_difference(setpoint, permille);
        if came != difference {
            return Err(format!("a trim of {setpoint} by {permille} adds {came}"));
        }
    }
    Ok(())
}

/// Two calls at once share nothing.
fn calls_at_once() -> Result<(), String> {
    let threads: Vec<_> = (0..4)
        .map(|_| std::thread::spawn(|| (0..50).try_for_each(|_| expect(SHEET, OUTPUT))))
        .collect();
    threads
        .into_iter()
        .try_for_each(|thread| thread.join().map_err(|_| "a thread failed".to_string())?)
}

fn run() -> Result<(), Box<dyn std::error::Error>> {
    sheets_are_answered()?;
    buffers_are_kept_to()?;
    trims_are_shown()?;
    calls_at_once()?;
    let mut sheet = Vec::new();
    let enough = c::setpoint_longest_sheet() as u64 + 1;
    io::stdin().take(enough).read_to_end(&mut sheet)?;
    io::stdout().write_all(&answer(&sheet)?)?;
    Ok(())
}

fn main() -> ExitCode {
    match run() {
        Ok(()) => ExitCode::SUCCESS,
        Err(error) => {
            eprintln!("{error}");
            ExitCode::FAILURE
        }
    }
}
