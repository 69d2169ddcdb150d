//! The time of one listing on 255 steps, beside the plain twin and beside the second matcher.

use crate::independent::Matcher;
use crate::proved;
use crate::random::Random;
use crate::shape::{Shape, Window};
use crate::twin;
use std::time::Instant;

fn symbol(j: u8) -> Shape {
    Shape::Symbol(j)
}

fn atleast(k: u8, part: Shape) -> Shape {
    Shape::Atleast(k, Box::new(part))
}

fn atmost(k: u8, part: Shape) -> Shape {
    Shape::Atmost(k, Box::new(part))
}

fn exact(k: u8, part: Shape) -> Shape {
    Shape::Exact(k, Box::new(part))
}

fn window(length: u8, what: Window) -> Shape {
    Shape::In(length, Box::new(what))
}

/// Many ends from each start.
fn dense() -> Shape {
    Shape::Any(vec![
        symbol(0),
        symbol(2),
        symbol(1),
        Shape::Concat(vec![symbol(0), atmost(3, symbol(2))]),
        window(9, Window::Nomore(200, symbol(0))),
        window(3, Window::Noless(0, symbol(0))),
    ])
}

/// Windows five deep, the innermost around a dense shape, inside a repeat.
fn windows(outermost: u8) -> Shape {
    let five = (0..5).fold(dense(), |part, i| {
        window(outermost - 2 * (4 - i), Window::Noless(2, part))
    });
    atmost(2, five)
}

/// Windows in repeats in windows, four of each, around a dense shape: each window is seen from each start.
fn in_turn(outermost: u8) -> Shape {
    (0..4).fold(dense(), |part, i| {
        atmost(2, window(outermost - 2 * (3 - i), Window::Noless(2, part)))
    })
}

fn shapes() -> Vec<(&'static str, Shape)> {
    let any = |a, b| Shape::Any(vec![symbol(a), symbol(b)]);
    vec![
        ("stable", symbol(6)),
        ("any of two", any(7, 4)),
        ("exact 2", exact(2, symbol(0))),
        ("atleast 2", atleast(2, symbol(0))),
        ("atmost 2", atmost(2, symbol(0))),
        (
            "a sequence of repeats",
            Shape::Concat(vec![atleast(2, symbol(0)), atmost(1, symbol(3))]),
        ),
        (
            "a window with counts",
            window(
                5,
                Window::And(vec![Window::Noless(2, any(0, 1)), Window::Nomore(1, any(2, 3))]),
            ),
        ),
        (
            "a window with an order",
            window(
                7,
                Window::Inorder(vec![atleast(2, any(0, 1)), window(4, Window::Noless(3, any(2, 3)))]),
            ),
        ),
        (
            "a sequence of ten",
            Shape::Concat(
                (0..10)
                    .map(|i| if i % 2 == 0 { atleast(1, symbol(0)) } else { any(0, 2) })
                    .collect(),
            ),
        ),
        (
            "repeats four deep",
            exact(3, atleast(1, atmost(4, atleast(2, any(0, 2))))),
        ),
        (
            "63 alternatives",
            Shape::Any((0..63).map(|i| symbol([0, 3, 6][i % 3])).collect()),
        ),
        ("exact 255, dense", exact(255, dense())),
        ("atmost 255, dense", atmost(255, dense())),
        ("windows five deep, near 255", windows(250)),
        ("windows five deep, near 128", windows(128)),
        ("windows in repeats, four deep", in_turn(128)),
    ]
}

/// The shortest of many runs, in microseconds: at least so many, and for a tenth of a second, so that a short run is not
/// measured only while other work has the processor.
fn best(runs: usize, mut run: impl FnMut() -> usize) -> f64 {
    let mut least = f64::MAX;
    let began = Instant::now();
    let mut done = 0;
    while done < runs || began.elapsed().as_millis() < 100 {
        let start = Instant::now();
        std::hint::black_box(run());
        least = least.min(start.elapsed().as_secs_f64() * 1e6);
        done += 1;
    }
    least
}

pub fn time() {
    let words = {
        let mut rng = Random::new(255);
        let mut words: Vec<u32> = (0..255).map(|_| rng.next() as u32 & 0xff).collect();
        words
            .iter_mut()
            .enumerate()
            .filter(|(i, _)| i % 7 > 0)
            .for_each(|(_, w)| *w |= 1);
        words
    };
    let bytes = proved::bytes(&words);
    println!("| shape | records | stretches | read and bind, µs | list, µs | twin, µs | ratio | second matcher, µs |");
    println!("|---|---|---|---|---|---|---|---|");
    for (name, shape) in shapes() {
        let text = shape.text();
        let mut out = vec![0; 2 * 255 * 128];
        let mut twin_out = vec![0; 2 * 255 * 128];
        let records = twin::records(&shape);
        let count = proved::list_into(&text, &bytes, &mut out).expect("the shape is listed");
        let read = best(200, || proved::bind(&text).expect("the shape is bound"));
        let whole = best(100, || {
            proved::list_into(&text, &bytes, &mut out).expect("the shape is listed")
        });
        let twin = best(100, || twin::listed(&records, &bytes, &mut twin_out));
        let second = best(1, || Matcher::new(&words).listing(&shape).len());
        let list = whole - read;
        println!(
            "| {name} | {} | {count} | {read:.1} | {list:.1} | {twin:.1} | {:.2} | {second:.0} |",
            shape.records(),
            list / twin
        );
    }
}

/// Texts of 4,096 bytes, and how long reading each takes, with binding where it is read.
pub fn time_reading() {
    let wide = format!("(any{})", " disappears".repeat(63));
    let texts = [
        (
            "64 records and blanks",
            format!("{wide}{}", " ".repeat(4096 - wide.len())),
        ),
        ("one name", "a".repeat(4096)),
        ("one number", format!("(exact {} up)", "1".repeat(4096 - 11))),
        ("parentheses", "(".repeat(4096)),
    ];
    println!("| text of 4,096 bytes | µs |");
    println!("|---|---|");
    for (name, text) in texts {
        assert_eq!(text.len(), 4096);
        println!("| {name} | {:.1} |", best(500, || proved::bind(&text).map_or(0, |n| n)));
    }
}
