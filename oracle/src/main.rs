use oracle::{compare, damage, images, long, replay, sources, spans, steps};
use std::process::ExitCode;
use std::time::Instant;

const USAGE: &str =
    "oracle compare [--sources DIR] [--quick] | damage [CALLS] | images [COUNT] | steps [CALLS] | replay OUT";

fn main() -> ExitCode {
    let args: Vec<String> = std::env::args().skip(1).collect();
    let args: Vec<&str> = args.iter().map(String::as_str).collect();
    match run(&args) {
        Ok(0) => ExitCode::SUCCESS,
        Ok(_) => ExitCode::FAILURE,
        Err(e) => {
            eprintln!("{e}");
            ExitCode::from(2)
        }
    }
}

/// The number of differences.
fn run(args: &[&str]) -> Result<u64, String> {
    match args {
        ["compare", options @ ..] => {
            sources::announce();
            let quick = options.contains(&"--quick");
            let rest: Vec<&str> = options.iter().copied().filter(|o| *o != "--quick").collect();
            match rest[..] {
                [] => {}
                ["--sources", folder] => sources::verify(folder)?,
                _ => return Err(USAGE.to_string()),
            }
            // The Rust's panics are caught and listed.
            std::panic::set_hook(Box::new(|_| {}));
            let started = Instant::now();
            let mut tally = compare::Tally::default();
            compare::run(&mut tally, quick);
            if quick {
                println!("  records past 2^24 bits: not run (--quick)");
            } else {
                long::run(&mut tally);
                spans::built(&mut tally);
            }
            tally.print();
            println!("{:.1} s", started.elapsed().as_secs_f64());
            Ok(tally.differences)
        }
        ["damage", calls @ ..] if calls.len() <= 1 => {
            sources::announce();
            let calls = calls.first().map_or(Ok(3_000_000), |n| n.parse().map_err(|_| USAGE.to_string()))?;
            Ok(damage::run(calls) + spans::foreign())
        }
        ["images", count @ ..] if count.len() <= 1 => {
            sources::announce();
            let count = count.first().map_or(Ok(600_000), |n| n.parse().map_err(|_| USAGE.to_string()))?;
            Ok(images::run(count))
        }
        ["steps", calls @ ..] if calls.len() <= 1 => {
            sources::announce();
            let calls = calls.first().map_or(Ok(3_000_000), |n| n.parse().map_err(|_| USAGE.to_string()))?;
            Ok(steps::run(calls))
        }
        ["replay", out] => {
            sources::announce();
            replay::write(out).map_err(|e| format!("{out}: {e}"))?;
            Ok(0)
        }
        _ => Err(USAGE.to_string()),
    }
}
