//! `deskdiff DESK [--seed S] [--seconds N | --cases N]`: feeds seeded inputs to
//! the desk program by a pipe and compares what it writes with the model, byte
//! for byte. DESK may also come from the variable HAKKIYOLU_DESK.

use outside::arguments::Arguments;
use outside::deskgen::input;
use outside::model::desk::desk;
use std::io::Write;
use std::process::{Command, ExitCode, Stdio};
use std::time::{Duration, Instant};

/// What the program writes; the input is written beside the reading, for the
/// pipes hold less than some inputs and outputs.
fn answer(program: &str, input: Vec<u8>) -> std::io::Result<Vec<u8>> {
    let mut child = Command::new(program)
        .stdin(Stdio::piped())
        .stdout(Stdio::piped())
        .spawn()?;
    let mut pipe = child.stdin.take().expect("a pipe");
    // A program that stops after its last line may close the pipe early.
    let writer = std::thread::spawn(move || drop(pipe.write_all(&input)));
    let output = child.wait_with_output()?;
    writer.join().expect("the writer ends");
    Ok(output.stdout)
}

fn main() -> std::io::Result<ExitCode> {
    let arguments = Arguments::read();
    let named = std::env::var("HAKKIYOLU_DESK").ok();
    let program = arguments.rest.first().cloned().or(named);
    let program = program.expect("the desk program's path");
    println!("seed {}", arguments.seed);
    let start = Instant::now();
    let (mut passed, mut lines) = (0_u64, 0);
    loop {
        let enough = match arguments.cases {
            Some(cases) => passed >= cases,
            None => start.elapsed() >= Duration::from_secs(arguments.seconds),
        };
        if enough {
            break;
        }
        let seed = arguments.seed.wrapping_add(passed);
        let input = input(seed);
        let expected = desk(&input);
        let got = answer(&program, input.clone())?;
        if got != expected {
            let same = expected
                .iter()
                .zip(&got)
                .take_while(|(one, other)| one == other);
            let same = same.count();
            println!("difference: seed {seed}, input of {} bytes", input.len());
            println!(
                "expected {} bytes, got {}, the same up to {same}",
                expected.len(),
                got.len()
            );
            println!("{passed} passed, 1 failed");
            return Ok(ExitCode::FAILURE);
        }
        passed += 1;
        lines += expected.iter().filter(|&&byte| byte == b'\n').count();
    }
    println!("{lines} output lines compared");
    println!("{passed} passed, 0 failed");
    Ok(ExitCode::SUCCESS)
}
