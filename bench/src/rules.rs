//! Which rules of tidying apply to a shape, written from docs/TIDYING.md alone.

use crate::shape::{Shape, Window};

/// The rules, a line of the document's tables each.
#[derive(Clone, Copy, Debug, PartialEq, Eq)]
pub enum Rule {
    Unnesting,
    Doubles,
    SinglePart,
    DeadSequence,
    NeighbourGoes,
    NeighboursDead,
    TwoAtleast,
    TwoAtmost,
    ExactAtleast,
    ExactAtmost,
    AtmostAtleast,
    NestedDead,
    NestedOne,
}

/// Each rule, and what it is called.
pub const ALL: [(Rule, &str); 13] = [
    (Rule::Unnesting, "unnesting"),
    (Rule::Doubles, "doubles"),
    (Rule::SinglePart, "single part"),
    (Rule::DeadSequence, "dead sequence"),
    (Rule::NeighbourGoes, "neighbours, the second goes"),
    (Rule::NeighboursDead, "neighbours that fit nothing"),
    (Rule::TwoAtleast, "alternatives, atleast and atleast"),
    (Rule::TwoAtmost, "alternatives, atmost and atmost"),
    (Rule::ExactAtleast, "alternatives, exact and atleast"),
    (Rule::ExactAtmost, "alternatives, exact and atmost"),
    (Rule::AtmostAtleast, "alternatives, atmost and atleast"),
    (Rule::NestedDead, "nested repeats that fit nothing"),
    (Rule::NestedOne, "nested repeats that are one"),
];

/// The rules that apply anywhere in the shape, each as often as it does.
pub fn applying(shape: &Shape) -> Vec<Rule> {
    let mut found = here(shape);
    match shape {
        Shape::Symbol(_) => {}
        Shape::Any(parts) | Shape::Concat(parts) => found.extend(parts.iter().flat_map(applying)),
        Shape::Exact(_, part) | Shape::Atleast(_, part) | Shape::Atmost(_, part) => found.extend(applying(part)),
        Shape::In(_, window) => found.extend(applying_in(window)),
    }
    found
}

fn applying_in(window: &Window) -> Vec<Rule> {
    match window {
        Window::Precisely(_, part) | Window::Noless(_, part) | Window::Nomore(_, part) => applying(part),
        Window::Inorder(parts) => parts.iter().flat_map(applying).collect(),
        Window::And(parts) | Window::Or(parts) => {
            let own = |part: &Window| std::mem::discriminant(part) == std::mem::discriminant(window);
            let mut found = gathered(parts, own);
            found.extend(doubles(parts));
            found.extend(parts.iter().flat_map(applying_in));
            found
        }
    }
}

/// The rules that apply to the shape itself.
fn here(shape: &Shape) -> Vec<Rule> {
    match shape {
        Shape::Any(parts) => {
            let mut found = gathered(parts, |part| matches!(part, Shape::Any(_)));
            found.extend(doubles(parts));
            found.extend(pairs(parts).filter_map(|(x, y)| alternatives(repeat(x)?, repeat(y)?)));
            found
        }
        Shape::Concat(parts) => {
            let mut found = gathered(parts, |part| matches!(part, Shape::Concat(_)));
            if parts.len() >= 2 && parts.contains(&Shape::Any(Vec::new())) {
                found.push(Rule::DeadSequence);
            }
            let next = parts.iter().zip(parts.iter().skip(1));
            found.extend(next.filter_map(|(x, y)| neighbours(repeat(x)?, repeat(y)?)));
            found
        }
        Shape::Exact(n, part) | Shape::Atleast(n, part) => {
            repeat(part).and_then(|inner| nested(*n, inner)).into_iter().collect()
        }
        Shape::Symbol(_) | Shape::Atmost(..) | Shape::In(..) => Vec::new(),
    }
}

/// Unnesting and single part, for a whole with these parts.
fn gathered<T>(parts: &[T], own_kind: impl Fn(&T) -> bool) -> Vec<Rule> {
    let mut found = Vec::new();
    if parts.iter().any(own_kind) {
        found.push(Rule::Unnesting);
    }
    if parts.len() == 1 {
        found.push(Rule::SinglePart);
    }
    found
}

fn doubles<T: PartialEq>(parts: &[T]) -> Option<Rule> {
    pairs(parts).any(|(x, y)| x == y).then_some(Rule::Doubles)
}

/// Each part with each behind it.
fn pairs<T>(parts: &[T]) -> impl Iterator<Item = (&T, &T)> {
    let behind = |i: usize| parts[i + 1..].iter();
    parts.iter().enumerate().flat_map(move |(i, x)| behind(i).map(move |y| (x, y)))
}

#[derive(Clone, Copy, PartialEq, Eq)]
enum Times {
    Exact,
    Atleast,
    Atmost,
}

#[derive(Clone, Copy)]
struct Repeat<'a> {
    times: Times,
    number: u32,
    part: &'a Shape,
}

fn repeat(shape: &Shape) -> Option<Repeat<'_>> {
    let (times, number, part) = match shape {
        Shape::Exact(n, part) => (Times::Exact, n, part),
        Shape::Atleast(n, part) => (Times::Atleast, n, part),
        Shape::Atmost(n, part) => (Times::Atmost, n, part),
        _ => return None,
    };
    Some(Repeat { times, number: u32::from(*number), part })
}

fn neighbours(x: Repeat, y: Repeat) -> Option<Rule> {
    if x.part != y.part {
        return None;
    }
    if y.times == Times::Atmost || y.number == 0 {
        Some(Rule::NeighbourGoes)
    } else {
        Some(Rule::NeighboursDead)
    }
}

fn alternatives(x: Repeat, y: Repeat) -> Option<Rule> {
    if x.part != y.part {
        return None;
    }
    let (n, m) = (x.number, y.number);
    match (x.times, y.times) {
        (Times::Atleast, Times::Atleast) => Some(Rule::TwoAtleast),
        (Times::Atmost, Times::Atmost) => Some(Rule::TwoAtmost),
        (Times::Exact, Times::Atleast) => (n + 1 >= m).then_some(Rule::ExactAtleast),
        (Times::Exact, Times::Atmost) => (n <= m + 1).then_some(Rule::ExactAtmost),
        (Times::Atmost, Times::Atleast) => (m <= n + 1).then_some(Rule::AtmostAtleast),
        (Times::Exact, Times::Exact) => None,
        (Times::Atleast, _) | (Times::Atmost, Times::Exact) => alternatives(y, x),
    }
}

fn nested(n: u8, inner: Repeat) -> Option<Rule> {
    let has_pieces = inner.times != Times::Atmost && inner.number >= 1;
    match n {
        0 => None,
        1 => (has_pieces && !has_window(inner.part)).then_some(Rule::NestedOne),
        _ => Some(Rule::NestedDead),
    }
}

fn has_window(shape: &Shape) -> bool {
    match shape {
        Shape::Symbol(_) => false,
        Shape::Any(parts) | Shape::Concat(parts) => parts.iter().any(has_window),
        Shape::Exact(_, part) | Shape::Atleast(_, part) | Shape::Atmost(_, part) => has_window(part),
        Shape::In(..) => true,
    }
}
