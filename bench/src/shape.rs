//! Shapes as the language has them, and how they are written.

/// The names of the case line's symbols.
pub const NAMES: [&str; 8] = ["up", "Up", "down", "Down", "appears", "disappears", "stable", "zero"];

#[derive(Clone, Debug, PartialEq, Eq)]
pub enum Shape {
    Symbol(u8),
    Any(Vec<Shape>),
    Concat(Vec<Shape>),
    Exact(u8, Box<Shape>),
    Atleast(u8, Box<Shape>),
    Atmost(u8, Box<Shape>),
    In(u8, Box<Window>),
}

#[derive(Clone, Debug, PartialEq, Eq)]
pub enum Window {
    Precisely(u8, Shape),
    Noless(u8, Shape),
    Nomore(u8, Shape),
    And(Vec<Window>),
    Or(Vec<Window>),
    Inorder(Vec<Shape>),
}

fn group(out: &mut String, word: &str, number: Option<u8>, parts: impl Iterator<Item = String>) {
    out.push('(');
    out.push_str(word);
    if let Some(n) = number {
        out.push_str(&format!(" {n}"));
    }
    for part in parts {
        out.push(' ');
        out.push_str(&part);
    }
    out.push(')');
}

impl Shape {
    pub fn text(&self) -> String {
        let mut out = String::new();
        match self {
            Shape::Symbol(j) => out.push_str(NAMES[*j as usize]),
            Shape::Any(ps) => group(&mut out, "any", None, ps.iter().map(Shape::text)),
            Shape::Concat(ps) => group(&mut out, "concat", None, ps.iter().map(Shape::text)),
            Shape::Exact(k, p) => group(&mut out, "exact", Some(*k), std::iter::once(p.text())),
            Shape::Atleast(k, p) => group(&mut out, "atleast", Some(*k), std::iter::once(p.text())),
            Shape::Atmost(k, p) => group(&mut out, "atmost", Some(*k), std::iter::once(p.text())),
            Shape::In(l, o) => group(&mut out, "in", Some(*l), std::iter::once(o.text())),
        }
        out
    }

    pub fn records(&self) -> usize {
        1 + match self {
            Shape::Symbol(_) => 0,
            Shape::Any(ps) | Shape::Concat(ps) => ps.iter().map(Shape::records).sum(),
            Shape::Exact(_, p) | Shape::Atleast(_, p) | Shape::Atmost(_, p) => p.records(),
            Shape::In(_, o) => o.records(),
        }
    }

    pub fn levels(&self) -> usize {
        1 + match self {
            Shape::Symbol(_) => 0,
            Shape::Any(ps) | Shape::Concat(ps) => ps.iter().map(Shape::levels).max().unwrap_or(0),
            Shape::Exact(_, p) | Shape::Atleast(_, p) | Shape::Atmost(_, p) => p.levels(),
            Shape::In(_, o) => o.levels(),
        }
    }
}

impl Window {
    pub fn text(&self) -> String {
        let mut out = String::new();
        match self {
            Window::Precisely(k, p) => group(&mut out, "precisely", Some(*k), std::iter::once(p.text())),
            Window::Noless(k, p) => group(&mut out, "noless", Some(*k), std::iter::once(p.text())),
            Window::Nomore(k, p) => group(&mut out, "nomore", Some(*k), std::iter::once(p.text())),
            Window::And(ps) => group(&mut out, "and", None, ps.iter().map(Window::text)),
            Window::Or(ps) => group(&mut out, "or", None, ps.iter().map(Window::text)),
            Window::Inorder(ps) => group(&mut out, "inorder", None, ps.iter().map(Shape::text)),
        }
        out
    }

    pub fn records(&self) -> usize {
        1 + match self {
            Window::Precisely(_, p) | Window::Noless(_, p) | Window::Nomore(_, p) => p.records(),
            Window::And(ps) | Window::Or(ps) => ps.iter().map(Window::records).sum(),
            Window::Inorder(ps) => ps.iter().map(Shape::records).sum(),
        }
    }

    pub fn levels(&self) -> usize {
        1 + match self {
            Window::Precisely(_, p) | Window::Noless(_, p) | Window::Nomore(_, p) => p.levels(),
            Window::And(ps) | Window::Or(ps) => ps.iter().map(Window::levels).max().unwrap_or(0),
            Window::Inorder(ps) => ps.iter().map(Shape::levels).max().unwrap_or(0),
        }
    }
}
