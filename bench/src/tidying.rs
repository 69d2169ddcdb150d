//! Random shapes through the proved tidying: what comes out fits as before, and no rule applies to it.

use crate::independent::Matcher;
use crate::parse::parse;
use crate::proved;
use crate::random::Random;
use crate::rules::{applying, Rule, ALL};
use crate::shape::Shape;
use std::process::exit;

/// Tidies so many shapes. Each rule must have had something to do.
pub fn tidy(cases: u64, seed: u64) {
    let mut rng = Random::new(seed);
    let mut counts = [0; ALL.len()];
    let mut tidy_already = 0;
    for case in 0..cases {
        let shape = small_enough(&mut rng);
        let rules = applying(&shape);
        if let Err(difference) = tidied_well(&shape, &rules, &mut rng) {
            eprintln!("case {case} of seed {seed}: {} {difference}", shape.text());
            exit(1);
        }
        tidy_already += u64::from(rules.is_empty());
        for ((rule, _), count) in ALL.iter().zip(&mut counts) {
            *count += u64::from(rules.contains(rule));
        }
    }
    println!("{cases} queries tidied, {tidy_already} of them tidy already (seed {seed}); a rule applied to so many:");
    for ((_, name), count) in ALL.iter().zip(counts) {
        println!("{count:8} {name}");
        if count == 0 {
            eprintln!("no query had {name}");
            exit(1);
        }
    }
}

/// A shape that is within the limits of a query.
fn small_enough(rng: &mut Random) -> Shape {
    loop {
        let levels = rng.pick(&[3, 4, 5, 6, 12]);
        let shape = rng.untidy(levels);
        if shape.records() <= 64 && shape.levels() <= 16 {
            return shape;
        }
    }
}

fn tidied_well(shape: &Shape, rules: &[Rule], rng: &mut Random) -> Result<(), String> {
    let text = proved::tidy(&shape.text()).map_err(|r| format!("refused {r:?}"))?;
    let tidied = parse(&text).ok_or_else(|| format!("became {text}, which is no shape"))?;
    if tidied.text() != text {
        return Err(format!("became {text}, which is not written as a text is"));
    }
    let left = applying(&tidied);
    if !left.is_empty() {
        return Err(format!("became {text}, to which {left:?} applies"));
    }
    if rules.is_empty() && tidied != *shape {
        return Err(format!("became {text}, though no rule applies"));
    }
    if !rules.is_empty() && tidied.records() >= shape.records() {
        return Err(format!("became {text}, which is not shorter"));
    }
    if proved::tidy(&text).as_ref() != Ok(&text) {
        return Err(format!("became {text}, which tidying changes again"));
    }
    for _ in 0..2 {
        let steps = rng.pick(&[0, 1, 3, 5, 7, 8, 9, 10]);
        let words = rng.words(steps);
        let null = rng.below(steps + 1);
        fit_alike(shape, &tidied, &words, null).map_err(|d| format!("became {text}, which {d} on {words:?}"))?;
    }
    Ok(())
}

/// By the proved matcher the listings are the same, and the null stretch at one position; by the second one all stretches are, seen
/// from every position.
fn fit_alike(shape: &Shape, tidied: &Shape, words: &[u32], null: usize) -> Result<(), String> {
    let (before, after) = (proved::list(&shape.text(), words), proved::list(&tidied.text(), words));
    if before.is_err() || before != after {
        return Err(format!("is listed as {after:?} and not as {before:?}"));
    }
    let fits = |shape: &Shape| proved::fit(&shape.text(), words, null, null);
    let (before, after) = (fits(shape), fits(tidied));
    if before.is_err() || before != after {
        return Err(format!("answers {after:?} and not {before:?} at ({null}, {null})"));
    }
    let mut matcher = Matcher::new(words);
    for a in 0..=words.len() {
        for s in 0..=a {
            if matcher.ends(shape, s, a) != matcher.ends(tidied, s, a) {
                return Err(format!("fits other stretches from {a}, seen from {s},"));
            }
        }
    }
    Ok(())
}
