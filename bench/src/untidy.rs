//! Random shapes as people put them together: parts come again, in repeats, and inside wholes of their own kind.

use crate::random::Random;
use crate::shape::{Shape, Window};

impl Random {
    /// A shape of at most so many levels, over three symbols.
    pub fn untidy(&mut self, levels: usize) -> Shape {
        if levels <= 1 {
            return Shape::Symbol(self.below(3) as u8);
        }
        match self.below(12) {
            0 | 1 => self.untidy(1),
            2..=4 => Shape::Any(self.parts_again(levels - 1)),
            5..=7 => self.sequence(levels - 1),
            8 | 9 => {
                let part = self.untidy(levels - 1);
                self.repeat_of(part)
            }
            10 => {
                let part = self.untidy(levels.saturating_sub(2));
                let inner = self.repeat_of(part);
                self.repeat_of(inner)
            }
            _ => self.window_over(levels - 1),
        }
    }

    /// A number small enough for a short line to have so many, and now and then the largest.
    fn few(&mut self) -> u8 {
        if self.one_in(30) {
            self.pick(&[253, 254, 255])
        } else {
            self.pick(&[0, 1, 1, 1, 2, 2, 3])
        }
    }

    fn repeat_of(&mut self, part: Shape) -> Shape {
        let times = self.pick(&[Shape::Exact, Shape::Atleast, Shape::Atmost]);
        times(self.few(), Box::new(part))
    }

    /// One part several times, in repeats or not, with others among them.
    fn parts_again(&mut self, levels: usize) -> Vec<Shape> {
        let again = self.untidy(levels.saturating_sub(1));
        let count = 1 + self.below(4);
        (0..count).map(|_| self.part_again(&again, levels)).collect()
    }

    fn part_again(&mut self, again: &Shape, levels: usize) -> Shape {
        match self.below(20) {
            0..=3 => again.clone(),
            4..=11 => self.repeat_of(again.clone()),
            12 => Shape::Any(Vec::new()),
            _ => self.untidy(levels),
        }
    }

    fn sequence(&mut self, levels: usize) -> Shape {
        let mut parts = self.parts_again(levels);
        // else most sequences would fit nothing
        if !self.one_in(2) {
            parts.retain(|part| *part != Shape::Any(Vec::new()));
        }
        if parts.is_empty() {
            parts.push(self.untidy(1));
        }
        Shape::Concat(parts)
    }

    fn window_over(&mut self, levels: usize) -> Shape {
        let length = 1 + self.below(6) as u8;
        let window = match self.below(5) {
            0 => Window::Inorder(self.parts_again(levels.saturating_sub(1))),
            1 | 2 => Window::And(self.counts_again(levels.saturating_sub(1))),
            _ => Window::Or(self.counts_again(levels.saturating_sub(1))),
        };
        Shape::In(length, Box::new(window))
    }

    /// One count several times, with others among them.
    fn counts_again(&mut self, levels: usize) -> Vec<Window> {
        let again = self.count(levels);
        let count = 1 + self.below(3);
        (0..count)
            .map(|_| match self.below(6) {
                0..=2 => again.clone(),
                3 if levels > 2 => Window::And(self.counts_again(levels - 1)),
                4 if levels > 2 => Window::Or(self.counts_again(levels - 1)),
                _ => self.count(levels),
            })
            .collect()
    }

    fn count(&mut self, levels: usize) -> Window {
        let count = self.pick(&[Window::Precisely, Window::Noless, Window::Nomore]);
        count(self.few(), self.untidy(levels.saturating_sub(1)))
    }
}
