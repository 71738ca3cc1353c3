//! Decides the machines that are its arguments, by the library `libbb.a`.
//!
//!     rustc -O examples/rust/decide.rs -L crates/bb_c/out -l static=bb

use std::env;
use std::process::ExitCode;

unsafe extern "C" {
    fn bb_decide_line(
        steps: u64,
        cells: u64,
        depth: u64,
        nodes: u64,
        cyclers: bool,
        translated: bool,
        backward: bool,
        line: *const u8,
        line_len: usize,
        out: *mut u8,
        out_len: usize,
        count: *mut usize,
    ) -> u32;
}

/// The reply to a line at the default limits by all deciders, and whether it is a verdict; the status where
/// there is none.
fn decided(line: &[u8]) -> Result<(String, bool), u32> {
    let mut reply = vec![0; line.len() + 97];
    let mut count = 0;
    // Safe: each pointer comes from a slice of that length or a variable of this function, none overlaps
    // another, and the call keeps none.
    let status = unsafe {
        bb_decide_line(
            1_000_000,
            65_536,
            300,
            1_000_000,
            true,
            true,
            true,
            line.as_ptr(),
            line.len(),
            reply.as_mut_ptr(),
            reply.len(),
            &mut count,
        )
    };
    if status > 1 {
        return Err(status);
    }
    reply.truncate(count);
    Ok((String::from_utf8_lossy(&reply).into_owned(), status == 0))
}

fn main() -> ExitCode {
    let mut status = 0;
    for machine in env::args().skip(1) {
        match decided(machine.as_bytes()) {
            Ok((reply, is_verdict)) => {
                println!("{reply}");
                if !is_verdict {
                    status = 1;
                }
            }
            Err(other) => {
                eprintln!("decide: status {other}");
                return ExitCode::from(other as u8);
            }
        }
    }
    ExitCode::from(status)
}
