//! A second matcher, written from docs/SHAPES.md alone: for a shape, a position it is seen from and a start, the set of ends,
//! asked for from the top and remembered.

use crate::shape::{Shape, Window};
use std::collections::HashMap;

type Ends = Vec<bool>;

pub struct Matcher<'a> {
    words: &'a [u32],
    known: HashMap<(*const Shape, usize, usize), Ends>,
}

impl<'a> Matcher<'a> {
    pub fn new(words: &'a [u32]) -> Self {
        Matcher {
            words,
            known: HashMap::new(),
        }
    }

    /// All stretches that are not null and that the shape fits, seen from 0, by start and then by end.
    pub fn listing(&mut self, shape: &Shape) -> Vec<(usize, usize)> {
        let n = self.words.len();
        let mut all = Vec::new();
        for a in 0..n {
            let ends = self.ends(shape, 0, a);
            all.extend((a + 1..=n).filter(|&b| ends[b]).map(|b| (a, b)));
        }
        all
    }

    pub fn fits(&mut self, shape: &Shape, a: usize, b: usize) -> bool {
        self.ends(shape, 0, a)[b]
    }

    /// For each position, whether the shape fits the stretch from a to there, seen from s.
    pub fn ends(&mut self, shape: &Shape, s: usize, a: usize) -> Ends {
        let key = (shape as *const Shape, s, a);
        if let Some(ends) = self.known.get(&key) {
            return ends.clone();
        }
        let ends = self.find_ends(shape, s, a);
        self.known.insert(key, ends.clone());
        ends
    }

    fn none(&self) -> Ends {
        vec![false; self.words.len() + 1]
    }

    fn find_ends(&mut self, shape: &Shape, s: usize, a: usize) -> Ends {
        let n = self.words.len();
        let mut found = self.none();
        match shape {
            Shape::Symbol(j) => {
                if a < n && self.words[a] >> j & 1 == 1 {
                    found[a + 1] = true;
                }
            }
            Shape::Any(parts) => {
                for part in parts {
                    let more = self.ends(part, s, a);
                    for (f, m) in found.iter_mut().zip(more) {
                        *f |= m;
                    }
                }
            }
            Shape::Concat(parts) => {
                found = self.ends(&parts[0], s, a);
                for part in &parts[1..] {
                    found = self.onward(&found, part, false);
                }
            }
            Shape::Exact(k, part) => found = self.repeats(part, *k as usize, *k as usize, s, a),
            Shape::Atleast(k, part) => found = self.repeats(part, *k as usize, n, s, a),
            Shape::Atmost(k, part) => found = self.repeats(part, 0, *k as usize, s, a),
            Shape::In(length, window) => {
                let b = a + *length as usize;
                if b <= n && self.holds(window, s, a, b) {
                    found[b] = true;
                }
            }
        }
        found
    }

    /// Where one gets from these positions by the part, seen from each; with `rising`, by an occurrence that is not null.
    fn onward(&mut self, from: &Ends, part: &Shape, rising: bool) -> Ends {
        let mut found = self.none();
        for c in 0..from.len() {
            if from[c] {
                for (b, e) in self.ends(part, c, c).into_iter().enumerate() {
                    found[b] |= e && !(rising && b == c);
                }
            }
        }
        found
    }

    /// The ends of chains from a of `least` to `most` occurrences that no occurrence stands before or goes on from.
    fn repeats(&mut self, part: &Shape, least: usize, most: usize, s: usize, a: usize) -> Ends {
        let n = self.words.len();
        let mut found = self.none();
        if (s..a).any(|z| self.ends(part, s, z)[a]) {
            return found;
        }
        let mut reached = self.none();
        reached[a] = true;
        for j in 0..=most.min(n - a) {
            if j >= least {
                for (f, r) in found.iter_mut().zip(&reached) {
                    *f |= r;
                }
            }
            reached = if j == 0 {
                let mut first = self.ends(part, s, a);
                first[a] = false;
                first
            } else {
                self.onward(&reached, part, true)
            };
        }
        for b in 0..=n {
            if found[b] && self.ends(part, b, b)[b + 1..].iter().any(|&e| e) {
                found[b] = false;
            }
        }
        found
    }

    fn holds(&mut self, window: &Window, s: usize, a: usize, b: usize) -> bool {
        match window {
            Window::Precisely(k, part) => self.count(part, s, a, b) == *k as usize,
            Window::Noless(k, part) => self.count(part, s, a, b) >= *k as usize,
            Window::Nomore(k, part) => self.count(part, s, a, b) <= *k as usize,
            Window::And(parts) => parts.iter().all(|p| self.holds(p, s, a, b)),
            Window::Or(parts) => parts.iter().any(|p| self.holds(p, s, a, b)),
            Window::Inorder(parts) => self.in_order(parts, s, a, b),
        }
    }

    fn count(&mut self, part: &Shape, s: usize, a: usize, b: usize) -> usize {
        (a..b)
            .map(|x| self.ends(part, s, x)[x + 1..=b].iter().filter(|&&e| e).count())
            .sum()
    }

    /// Each part takes the stretch that ends first: no other leaves more room for the next.
    fn in_order(&mut self, parts: &[Shape], s: usize, a: usize, b: usize) -> bool {
        let mut at = a;
        for part in parts {
            let first = (at..=b).filter_map(|x| {
                let ends = self.ends(part, s, x);
                (x..=b).find(|&y| ends[y])
            });
            match first.min() {
                Some(y) => at = y,
                None => return false,
            }
        }
        true
    }
}
