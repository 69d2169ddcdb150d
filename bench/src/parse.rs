//! Reads a text back into a shape, as the language has it.

use crate::shape::{Shape, Window, NAMES};
use std::iter::Peekable;
use std::str::SplitWhitespace;

type Words<'a> = Peekable<SplitWhitespace<'a>>;

/// The shape that a text stands for, if it stands for one.
pub fn parse(text: &str) -> Option<Shape> {
    let spaced = text.replace('(', " ( ").replace(')', " ) ");
    let mut words = spaced.split_whitespace().peekable();
    let whole = shape(&mut words)?;
    words.next().is_none().then_some(whole)
}

fn shape(words: &mut Words) -> Option<Shape> {
    let first = words.next()?;
    if first != "(" {
        let symbol = NAMES.iter().position(|name| *name == first)?;
        return Some(Shape::Symbol(symbol as u8));
    }
    let whole = match words.next()? {
        "any" => Shape::Any(parts(words, shape)?),
        "concat" => Shape::Concat(parts(words, shape)?),
        "exact" => Shape::Exact(number(words)?, Box::new(shape(words)?)),
        "atleast" => Shape::Atleast(number(words)?, Box::new(shape(words)?)),
        "atmost" => Shape::Atmost(number(words)?, Box::new(shape(words)?)),
        "in" => Shape::In(number(words)?, Box::new(window(words)?)),
        _ => return None,
    };
    closed(words)?;
    Some(whole)
}

fn window(words: &mut Words) -> Option<Window> {
    (words.next()? == "(").then_some(())?;
    let whole = match words.next()? {
        "precisely" => Window::Precisely(number(words)?, shape(words)?),
        "noless" => Window::Noless(number(words)?, shape(words)?),
        "nomore" => Window::Nomore(number(words)?, shape(words)?),
        "and" => Window::And(parts(words, window)?),
        "or" => Window::Or(parts(words, window)?),
        "inorder" => Window::Inorder(parts(words, shape)?),
        _ => return None,
    };
    closed(words)?;
    Some(whole)
}

fn parts<T>(words: &mut Words, part: fn(&mut Words) -> Option<T>) -> Option<Vec<T>> {
    let mut all = Vec::new();
    while *words.peek()? != ")" {
        all.push(part(words)?);
    }
    Some(all)
}

fn number(words: &mut Words) -> Option<u8> {
    words.next()?.parse().ok()
}

fn closed(words: &mut Words) -> Option<()> {
    (words.next()? == ")").then_some(())
}
