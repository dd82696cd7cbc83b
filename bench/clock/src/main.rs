//! How long a program takes on each of some files: `clock RUNS PROGRAM FILE..` prints, for each file, the median of the
//! wall-clock nanoseconds of RUNS runs with the file on standard input. The files take turns.
use std::fs::File;
use std::process::{exit, Command, Stdio};
use std::time::Instant;

fn once(program: &str, file: &str) -> std::io::Result<u128> {
    let input = File::open(file)?;
    let start = Instant::now();
    let status = Command::new(program)
        .stdin(Stdio::from(input))
        .stdout(Stdio::null())
        .status()?;
    let taken = start.elapsed().as_nanos();
    if !status.success() {
        eprintln!("{program} failed on {file}");
        exit(1);
    }
    Ok(taken)
}

fn main() -> std::io::Result<()> {
    let args: Vec<String> = std::env::args().collect();
    let [_, runs, program, files @ ..] = args.as_slice() else {
        eprintln!("usage: clock RUNS PROGRAM FILE..");
        exit(2);
    };
    let runs: usize = runs.parse().expect("a number of runs");
    let mut taken = vec![Vec::with_capacity(runs); files.len()];
    for _ in 0..runs {
        for (file, times) in files.iter().zip(&mut taken) {
            times.push(once(program, file)?);
        }
    }
    for times in &mut taken {
        times.sort_unstable();
        println!("{}", times[times.len() / 2]);
    }
    Ok(())
}
