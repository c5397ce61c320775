//! `measure PROGRAM KIND` feeds the same large texts to a program and to this
//! reader's own, in turn, and prints the times of all their runs, each from
//! start to end, and the ratio of the two. KIND is figures, movements, pairs,
//! corners, play, shown or why: with corners the programs print every corner of
//! the figures, with play every sample of movements of few frames, with shown
//! whether each face of such pairs is shown at each frame, with why the reason.

use independent::compare::output;
use independent::generate::rng::Rng;
use independent::generate::{figure_limits, movement, pair};
use std::error::Error;
use std::path::Path;
use std::time::{Duration, Instant};

const SEED: u64 = 1;
const TEXTS: u64 = 20;
const USAGE: &str = "measure PROGRAM figures | movements | pairs | corners | play | shown | why";

fn main() -> Result<(), Box<dyn Error>> {
    let arguments: Vec<String> = std::env::args().skip(1).collect();
    let words: Vec<&str> = arguments.iter().map(String::as_str).collect();
    let (program, kind, own_name, times_each) = match words[..] {
        [program, kind @ "figures"] => (program, kind, "figure_listing", 20),
        [program, kind @ "movements"] => (program, kind, "movement_listing", 20),
        [program, kind @ "pairs"] => (program, kind, "pair", 10),
        [program, kind @ "corners"] => (program, kind, "corners", 10),
        [program, kind @ "play"] => (program, kind, "play", 2),
        [program, kind @ "shown"] => (program, kind, "shown", 5),
        [program, kind @ "why"] => (program, kind, "why", 5),
        _ => return Err(USAGE.into()),
    };
    let own = std::env::current_exe()?.with_file_name(own_name);
    let mut times = [Duration::ZERO; 2];
    for index in 0..TEXTS {
        let text = large(kind, index);
        for _ in 0..times_each {
            let found = timed(Path::new(program), &text, &mut times[0])?;
            let expected = timed(&own, &text, &mut times[1])?;
            if found != expected {
                return Err(format!("the outputs differ at text {index}").into());
            }
        }
    }
    let [program_time, own_time] = times.map(|time| time.as_secs_f64() * 1000.0);
    println!(
        "{} runs on {TEXTS} large {}: {program} {program_time:.0} ms, {own_name} {own_time:.0} ms, ratio {:.2}",
        TEXTS * times_each,
        title(kind),
        program_time / own_time
    );
    Ok(())
}

fn title(kind: &str) -> &str {
    match kind {
        "corners" => "figures, every corner",
        "play" => "movements, every sample",
        "shown" | "why" => "pairs, every face and frame",
        _ => kind,
    }
}

fn large(kind: &str, index: u64) -> Vec<u8> {
    let mut rng = Rng::new(SEED, index);
    match kind {
        "figures" | "corners" => figure_limits::full(&mut rng).text(&mut rng),
        "play" => movement::short(&mut rng).text(&mut rng),
        "pairs" | "shown" | "why" => pair::full(&mut rng).text(&mut rng),
        _ => movement::full(&mut rng).text(&mut rng),
    }
}

/// What a program prints of a text; its time is added to the sum.
fn timed(program: &Path, text: &[u8], sum: &mut Duration) -> std::io::Result<Vec<u8>> {
    let start = Instant::now();
    let printed = output(program, text)?;
    *sum += start.elapsed();
    Ok(printed)
}
