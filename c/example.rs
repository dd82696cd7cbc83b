// Runs the day on standard input through the model and prints its answer. A first try with a buffer that is too small
// shows that this is told and that nothing is written.
use std::io::{Read, Write};

const DONE: u32 = 0;
const INPUT_TOO_LONG: u32 = 1;

unsafe extern "C" {
    fn wetlandspice_run_day(
        input: *const u8,
        input_len: usize,
        buffer: *mut u8,
        buffer_len: usize,
        written: *mut usize,
    ) -> u32;
}

/// What became of the day, and the length that was told.
fn run_day(input: &[u8], buffer: &mut [u8]) -> (u32, usize) {
    let mut written = 0;
    // SAFETY: both slices are valid for their lengths, the three do not overlap, and none of the pointers is null.
    let status = unsafe {
        wetlandspice_run_day(input.as_ptr(), input.len(), buffer.as_mut_ptr(), buffer.len(), &mut written)
    };
    (status, written)
}

fn main() -> Result<(), Box<dyn std::error::Error>> {
    let mut input = Vec::new();
    std::io::stdin().take(65_537).read_to_end(&mut input)?;
    let mut small = [7u8; 2];
    let (status, needed) = run_day(&input, &mut small);
    if status != DONE && small != [7, 7] {
        return Err("the buffer was written to".into());
    }
    if status == INPUT_TOO_LONG {
        println!("the input is too long");
        return Ok(());
    }
    let mut buffer = vec![7u8; needed + 1];
    let (status, written) = run_day(&input, &mut buffer[..needed]);
    if status != DONE || written != needed || buffer[needed] != 7 {
        return Err(format!("status {status}, {written} bytes of {needed}").into());
    }
    std::io::stdout().write_all(&buffer[..written])?;
    Ok(())
}
