//! Compares the proved matcher and the proved tidying with second ones, and measures the matcher.
//!
//!     bench compare [CASES [SEED]]   random shapes on random lines, listed and fitted alike by both
//!     bench tidy [CASES [SEED]]      random shapes, tidied: they fit as before, and no rule is left
//!     bench time                     one listing on 255 steps, beside a plain twin and beside the second matcher
//!     bench list                     lines `WORD WORD … | TEXT` on standard input, their stretches on standard output

mod independent;
mod parse;
mod proved;
mod random;
mod rules;
mod shape;
mod tidying;
mod timing;
mod twin;
mod untidy;

use independent::Matcher;
use random::Random;
use std::io::BufRead;
use std::process::exit;

/// One random case: false where the two differ.
fn same(rng: &mut Random) -> Result<(), String> {
    let steps = match rng.below(40) {
        0 => 255,
        1..=3 => rng.below(80),
        _ => rng.below(20),
    };
    let records = rng.pick(&[2, 4, 8, 16, 32, 64]);
    let levels = rng.pick(&[2, 3, 5, 8, 16]);
    let most = if steps > 80 { records.min(12) } else { records };
    let shape = rng.shape(most, levels);
    if shape.records() > 64 || shape.levels() > 16 {
        return Ok(());
    }
    let words = rng.words(steps);
    let text = shape.text();
    let mut second = Matcher::new(&words);
    let expected = second.listing(&shape);
    let found = proved::list(&text, &words).map_err(|r| format!("{text}: refused {r:?}"))?;
    if found != expected {
        return Err(format!(
            "{text} on {words:?}\n  proved: {found:?}\n  second: {expected:?}"
        ));
    }
    for _ in 0..4 {
        let a = rng.below(steps + 1);
        let b = a + rng.below(steps + 1 - a);
        let fits = proved::fit(&text, &words, a, b).map_err(|r| format!("{text}: refused {r:?}"))?;
        if fits != second.fits(&shape, a, b) {
            return Err(format!("{text} at ({a}, {b}) of {words:?}: proved {fits}"));
        }
    }
    Ok(())
}

fn compare(cases: u64, seed: u64) {
    let mut rng = Random::new(seed);
    for case in 0..cases {
        if let Err(difference) = same(&mut rng) {
            eprintln!("case {case} of seed {seed} differs: {difference}");
            exit(1);
        }
    }
    println!("{cases} cases alike (seed {seed})");
}

fn list() {
    for line in std::io::stdin().lock().lines() {
        let line = line.expect("standard input can be read");
        let (words, text) = line.split_once('|').unwrap_or((line.as_str(), ""));
        let words: Result<Vec<u32>, _> = words.split_whitespace().map(str::parse).collect();
        match words {
            Err(_) => println!("no words"),
            Ok(words) => match proved::list(text.trim(), &words) {
                Ok(all) => println!(
                    "{}",
                    all.iter()
                        .map(|(a, b)| format!("{a}-{b}"))
                        .collect::<Vec<_>>()
                        .join(" ")
                ),
                Err(proved::Refusal(number, place)) => println!("refused {number} {place}"),
            },
        }
    }
}

fn main() {
    let args: Vec<String> = std::env::args().collect();
    let number = |i: usize, default: u64| args.get(i).and_then(|s| s.parse().ok()).unwrap_or(default);
    match args.get(1).map(String::as_str) {
        Some("compare") => compare(number(2, 2000), number(3, 1995)),
        Some("tidy") => tidying::tidy(number(2, 5000), number(3, 1995)),
        Some("list") => list(),
        Some("time") => {
            timing::time();
            println!();
            timing::time_reading();
        }
        _ => {
            eprintln!("usage: bench compare [CASES [SEED]] | bench tidy [CASES [SEED]] | bench time | bench list");
            exit(2);
        }
    }
}
