//! Bytes for reading, drawn: any, images with something changed, and images made of drawn fields.

use crate::fields::{image, Path};
use second::random::Random;
use std::array;

/// What the bytes are, and the bytes.
pub type Drawn = (&'static str, Vec<u8>);

pub fn drawn(images: &[Vec<u8>], random: &mut Random) -> Drawn {
    let mut any = || images[random.below(images.len() as u64) as usize].clone();
    let (image, other) = (any(), any());
    match random.below(8) {
        0 => any_bytes(random),
        1 => bits_turned(image, random),
        2 => cut(image, random),
        3 => extended(image, random),
        4 => spliced(image, &other, random),
        _ => made(random),
    }
}

/// Of small lengths.
fn any_bytes(random: &mut Random) -> Drawn {
    let most = random.pick(&[2, 4, 16, 64]);
    let length = random.below(most);
    let bytes = (0..length).map(|_| random.draw() as u8);
    ("any bytes", bytes.collect())
}

/// One bit to four, of which two can be the same.
fn bits_turned(mut image: Vec<u8>, random: &mut Random) -> Drawn {
    for _ in 0..=random.below(4) {
        let bit = random.below(8 * image.len() as u64) as usize;
        image[bit / 8] ^= 1 << (bit % 8);
    }
    ("an image with bits turned", image)
}

fn cut(mut image: Vec<u8>, random: &mut Random) -> Drawn {
    image.truncate(random.below(image.len() as u64) as usize);
    ("an image cut short", image)
}

/// By one byte to four.
fn extended(mut image: Vec<u8>, random: &mut Random) -> Drawn {
    for _ in 0..=random.below(4) {
        image.push(random.pick(&[0x00, 0x01, 0x80, 0xff]));
    }
    ("an image with bytes behind it", image)
}

/// The front of one and the end of another, mostly from the same byte on.
fn spliced(mut image: Vec<u8>, other: &[u8], random: &mut Random) -> Drawn {
    let at = random.below(image.len() as u64 + 1) as usize;
    let any = random.below(other.len() as u64 + 1) as usize;
    let same = at.min(other.len());
    let from = random.pick(&[same, same, same, any]);
    image.truncate(at);
    image.extend(&other[from..]);
    ("two images spliced", image)
}

/// Of up to four lines. Every field is in range, so that the tree alone can be refused.
fn made(random: &mut Random) -> Drawn {
    let lines = drawn_lines(random);
    let any = 1 + random.below(64) as u16;
    let weights = array::from_fn(|_| random.pick(&[2, 2, 2, 3, 5, any]));
    let rows: Vec<_> = lines.iter().map(|_| drawn_rows(&weights, random)).collect();
    let rows = rows.iter().map(Vec::as_slice);
    let paths: Vec<Path> = lines.into_iter().zip(rows).collect();
    (broken_rule(&paths), image(&paths))
}

/// Mostly in rising sequence.
fn drawn_lines(random: &mut Random) -> Vec<u16> {
    let count = random.below(5);
    let mut lines: Vec<_> = (0..count).map(|_| random.below(64) as u16).collect();
    if random.below(8) > 0 {
        lines.sort_unstable();
    }
    lines
}

/// Weights are mostly those of their level, and edges are mostly below them.
fn drawn_rows(weights: &[u16; 11], random: &mut Random) -> Vec<(u16, u16)> {
    let most = random.pick(&[1, 2, 3, 11]);
    let length = 1 + random.below(most) as usize;
    let mut row = |of_level: u16| {
        let any = 1 + random.below(4095) as u16;
        let weight = match random.below(20) {
            0 => 1,
            1 => any,
            _ => of_level,
        };
        let edge = match random.below(20) {
            0 => random.pick(&[weight, any]),
            _ => random.below(weight.into()) as u16,
        };
        (weight, edge)
    };
    weights[..length].iter().map(|&it| row(it)).collect()
}

/// Which rule of a legal tree (document 02, Ask 9) is broken by the paths.
fn broken_rule(paths: &[Path]) -> &'static str {
    let each = |holds: fn(&[(u16, u16)]) -> bool| paths.iter().all(|&(_, rows)| holds(rows));
    let pair = |holds: fn(Path, Path) -> bool| {
        let later = |at: usize| paths[at + 1..].iter();
        let mut paths = paths.iter().enumerate();
        paths.all(|(at, &one)| later(at).all(|&two| holds(one, two)))
    };
    let rules = [
        ("an edge not below its weight", each(edges_below)),
        ("a period out of range", each(period_in_range)),
        ("a weight of 1 not alone", each(weights_at_least_2)),
        ("two weights at one place", pair(weights_equal)),
        ("a line on another's way", pair(none_on_a_way)),
        (
            "line numbers that do not rise",
            pair(|one, two| one.0 < two.0),
        ),
    ];
    let broken: Vec<_> = rules.into_iter().filter(|&(_, holds)| !holds).collect();
    match broken[..] {
        [] => "a legal tree",
        [(rule, _)] => rule,
        _ => "more than one of these",
    }
}

fn edges_below(rows: &[(u16, u16)]) -> bool {
    rows.iter().all(|&(weight, edge)| edge < weight)
}

fn period_in_range(rows: &[(u16, u16)]) -> bool {
    let weights = rows.iter().map(|&(weight, _)| u32::from(weight));
    // Eleven weights can make more than 128 bits hold, so the product stops at 4,096.
    weights.fold(1, |period: u32, weight| (period * weight).min(4096)) <= 4095
}

fn weights_at_least_2(rows: &[(u16, u16)]) -> bool {
    matches!(rows, [(1, _)]) || rows.iter().all(|&(weight, _)| weight >= 2)
}

/// On each level that both have, up to the first one on which their edges differ.
fn weights_equal((_, one): Path, (_, two): Path) -> bool {
    let levels = one.iter().zip(two);
    let same = levels.clone().take_while(|(one, two)| one.1 == two.1);
    let reached = same.count() + 1;
    levels.take(reached).all(|(one, two)| one.0 == two.0)
}

fn none_on_a_way((_, one): Path, (_, two): Path) -> bool {
    !one.starts_with(two) && !two.starts_with(one)
}
