//! Random shapes and lines, the same for the same seed.

use crate::shape::{Shape, Window};

pub struct Random(u64);

impl Random {
    pub fn new(seed: u64) -> Self {
        Random(seed.wrapping_mul(0x9e37_79b9_7f4a_7c15) | 1)
    }

    pub fn next(&mut self) -> u64 {
        self.0 ^= self.0 << 13;
        self.0 ^= self.0 >> 7;
        self.0 ^= self.0 << 17;
        self.0.wrapping_mul(0x2545_f491_4f6c_dd1d)
    }

    pub fn below(&mut self, n: usize) -> usize {
        (self.next() >> 33) as usize % n
    }

    pub fn one_in(&mut self, n: usize) -> bool {
        self.below(n) == 0
    }

    pub fn pick<T: Copy>(&mut self, from: &[T]) -> T {
        from[self.below(from.len())]
    }

    /// A small number mostly, and now and then a large one.
    fn number(&mut self) -> u8 {
        if self.one_in(12) {
            self.pick(&[255, 254, 100, 17, 9])
        } else {
            self.below(5) as u8
        }
    }

    /// The words of a line: a few symbols, overlapping, more or less dense, with other bits set too.
    pub fn words(&mut self, steps: usize) -> Vec<u32> {
        let symbols = 1 + self.below(8);
        let dense = 1 + self.below(4);
        let runs = self.one_in(2);
        let mut word = 0;
        (0..steps)
            .map(|_| {
                if !runs || self.one_in(3) {
                    word = (0..symbols)
                        .filter(|_| self.below(4) < dense)
                        .fold(0, |w, j| w | 1 << j);
                }
                word | (self.next() as u32 & 0xffff_ff00)
            })
            .collect()
    }

    /// A shape of at most so many records and levels.
    pub fn shape(&mut self, records: usize, levels: usize) -> Shape {
        let mut left = records;
        self.part(&mut left, levels)
    }

    fn symbol(&mut self) -> Shape {
        Shape::Symbol(self.below(8) as u8)
    }

    fn part(&mut self, left: &mut usize, levels: usize) -> Shape {
        *left = left.saturating_sub(1);
        if levels <= 1 || *left == 0 {
            return self.symbol();
        }
        match self.below(9) {
            0 => self.symbol(),
            1 | 2 => Shape::Any(self.parts(left, levels, 0)),
            3 | 4 => Shape::Concat(self.parts(left, levels, 1)),
            5 => Shape::Exact(self.number(), Box::new(self.part(left, levels - 1))),
            6 => Shape::Atleast(self.number(), Box::new(self.part(left, levels - 1))),
            7 => Shape::Atmost(self.number(), Box::new(self.part(left, levels - 1))),
            _ if levels >= 3 && *left >= 2 => {
                let length = 1 + if self.one_in(8) { self.below(255) } else { self.below(9) };
                Shape::In(length as u8, Box::new(self.window(left, levels - 1)))
            }
            _ => self.symbol(),
        }
    }

    fn parts(&mut self, left: &mut usize, levels: usize, least: usize) -> Vec<Shape> {
        let wanted = (least + self.below(4)).max(if self.one_in(20) { 12 } else { 0 });
        let mut parts = Vec::new();
        while parts.len() < least || (parts.len() < wanted && *left > 0) {
            parts.push(self.part(left, levels - 1));
        }
        parts
    }

    fn window(&mut self, left: &mut usize, levels: usize) -> Window {
        *left = left.saturating_sub(1);
        let kind = self.below(if levels >= 3 && *left >= 4 { 7 } else { 4 });
        match kind {
            0 => Window::Precisely(self.number(), self.part(left, levels - 1)),
            1 => Window::Noless(self.number(), self.part(left, levels - 1)),
            2 => Window::Nomore(self.number(), self.part(left, levels - 1)),
            3 | 4 => Window::Inorder(self.parts(left, levels, 1)),
            5 => Window::And(self.counts(left, levels)),
            _ => Window::Or(self.counts(left, levels)),
        }
    }

    fn counts(&mut self, left: &mut usize, levels: usize) -> Vec<Window> {
        let wanted = 1 + self.below(3);
        let mut parts = Vec::new();
        while parts.is_empty() || (parts.len() < wanted && *left >= 2) {
            *left = left.saturating_sub(1);
            let nested = levels >= 4 && *left >= 4 && self.one_in(4);
            parts.push(match self.below(if nested { 5 } else { 3 }) {
                0 => Window::Precisely(self.number(), self.part(left, levels - 2)),
                1 => Window::Noless(self.number(), self.part(left, levels - 2)),
                2 => Window::Nomore(self.number(), self.part(left, levels - 2)),
                3 => Window::And(self.counts(left, levels - 1)),
                _ => Window::Or(self.counts(left, levels - 1)),
            });
        }
        parts
    }
}
