//! What the orders of a generated list are drawn from, for each shape.

use crate::orders::{pack, ORDER_BYTES};
use crate::random::Random;
use crate::tree::{LAST_LINE, LAST_PERIOD};
use std::ops::Range;

/// The shapes of generated lists.
#[derive(Clone, Copy, Debug, PartialEq, Eq)]
pub enum Shape {
    /// Few lines, many closes.
    Sparse,
    /// Mostly opens of all 64 lines.
    Full,
    /// Powers of two times a small factor, so that many nodes stand above a line.
    Deep,
    /// Primes and products of two primes.
    Primes,
    /// Products of small primes, where closes join what opens split.
    Joining,
}

/// Lines, periods and shares of one list.
pub struct Stock {
    /// Number of orders.
    pub orders: u64,
    pub lines: Vec<u64>,
    /// The lines that closes are drawn from, one that is to be closed more often several times.
    pub closed: Vec<u64>,
    pub periods: Vec<u64>,
    /// Periods are mostly taken one after the other, not at random; the first time over, all
    /// lines and periods are.
    pub periods_in_turn: bool,
    /// Opens in a hundred orders.
    pub opens: u64,
    /// Closes in a hundred orders; the rest are faulty orders.
    pub closes: u64,
}

/// Periods that fill a plan; a period outside the family mostly gets refusal 5.
const FAMILIES: [&[u64]; 7] = [
    &[64],
    &[64, 96, 128],
    &[96, 128, 192, 256, 2_048],
    &[128, 2_048, 3_072, 4_032],
    &[65, 195, 455, 585, 4_095],
    &[315, 819, 1_365, 4_095],
    &[4_094],
];
const STRANGERS: [u64; 4] = [1, 2_048, 4_093, 4_095];

const FACTORS: [u64; 8] = [1, 1, 1, 1, 3, 5, 7, 9];

const SMALL_PRIMES: [u64; 18] = [
    2, 3, 5, 7, 11, 13, 17, 19, 23, 29, 31, 37, 41, 43, 47, 53, 59, 61,
];
const LARGE_PRIMES: [u64; 5] = [1_021, 2_039, 4_079, 4_091, 4_093];

impl Shape {
    pub const ALL: [Shape; 5] = [
        Shape::Sparse,
        Shape::Full,
        Shape::Deep,
        Shape::Primes,
        Shape::Joining,
    ];

    pub fn named(name: &str) -> Option<Shape> {
        match name {
            "sparse" => Some(Shape::Sparse),
            "full" => Some(Shape::Full),
            "deep" => Some(Shape::Deep),
            "primes" => Some(Shape::Primes),
            "joining" => Some(Shape::Joining),
            _ => None,
        }
    }

    /// The stock of the next list.
    pub fn stock(self, random: &mut Random) -> Stock {
        match self {
            Shape::Sparse => sparse(random),
            Shape::Full => full(random),
            Shape::Deep => deep(random),
            Shape::Primes => primes(random),
            Shape::Joining => joining(random),
        }
    }
}

/// So many lines, one after the other from a random first one on.
fn lines_from_any(random: &mut Random, count: u64) -> Vec<u64> {
    let first = random.below(LAST_LINE + 1);
    (0..count)
        .map(|at| (first + at) % (LAST_LINE + 1))
        .collect()
}

fn sparse(random: &mut Random) -> Stock {
    let orders = random.below(25);
    let lines = lines_from_any(random, 6);
    let base = 2 + random.below(11);
    let mut periods = vec![base, 1 + random.below(LAST_PERIOD)];
    for _ in 0..4 {
        periods.push(base * (1 + random.below(LAST_PERIOD / base)));
    }
    if random.below(6) == 0 {
        periods.push(1);
    }
    Stock {
        orders,
        closed: lines.clone(),
        lines,
        periods,
        periods_in_turn: false,
        opens: 48,
        closes: 36,
    }
}

fn full(random: &mut Random) -> Stock {
    let orders = 110 + random.below(91);
    let lines = lines_from_any(random, 64);
    let family = random.pick(&FAMILIES);
    let mut periods: Vec<u64> = family.iter().copied().cycle().take(15).collect();
    periods.push(random.pick(&STRANGERS));
    Stock {
        orders,
        closed: lines.clone(),
        lines,
        periods,
        periods_in_turn: false,
        opens: 91,
        closes: 3,
    }
}

fn deep(random: &mut Random) -> Stock {
    let orders = 20 + random.below(41);
    let lines = lines_from_any(random, 24);
    let factor = random.pick(&FACTORS);
    let powers = (0..12).map(|power| factor << power);
    let mut periods: Vec<u64> = powers.filter(|p| (2..=LAST_PERIOD).contains(p)).collect();
    match random.below(4) {
        0 => periods.reverse(),
        1 => random.shuffle(&mut periods),
        _ => periods = [full_but_one_edge(factor), periods].concat(),
    }
    Stock {
        orders,
        closed: lines.clone(),
        lines,
        periods,
        periods_in_turn: true,
        opens: 76,
        closes: 14,
    }
}

/// So many opens of the factor that with the one that follows a root of this weight has one edge
/// left. Each power then finds one free edge only, in the last node, and adds a node there; with
/// more edges free it would take an earlier start beside that node.
fn full_but_one_edge(factor: u64) -> Vec<u64> {
    vec![factor; factor.saturating_sub(2) as usize]
}

fn primes(random: &mut Random) -> Stock {
    let orders = 25 + random.below(46);
    let lines = lines_from_any(random, 40);
    let base = random.pick(&SMALL_PRIMES[..8]);
    let mut periods = vec![base, base * base];
    for _ in 0..8 {
        periods.push(base * random.pick(&SMALL_PRIMES));
    }
    periods.push(random.pick(&SMALL_PRIMES) * random.pick(&SMALL_PRIMES));
    periods.push(random.pick(&LARGE_PRIMES));
    Stock {
        orders,
        closed: lines.clone(),
        lines,
        periods,
        periods_in_turn: false,
        opens: 74,
        closes: 17,
    }
}

/// The first time over, the opens split nodes. Most closes are of the lines that stand beside what
/// was split, so that it is joined.
fn joining(random: &mut Random) -> Stock {
    let orders = 90 + random.below(41);
    let (periods, staying) = match random.below(3) {
        0 => root_split_again_and_again(random),
        1 => equal_nodes_split(random),
        _ => root_over_lines_and_nodes_split(random),
    };
    let lines = lines_from_any(random, periods.len() as u64);
    let places = 0..lines.len();
    let closed = places.flat_map(|at| vec![lines[at]; if staying.contains(&at) { 1 } else { 8 }]);
    Stock {
        orders,
        closed: closed.collect(),
        lines,
        periods,
        periods_in_turn: true,
        opens: 52,
        closes: 42,
    }
}

/// Periods in the sequence of their opens, and the places among them of the lines that are seldom
/// closed.
type Opens = (Vec<u64>, Range<usize>);

/// A number times one, two and more factors, the longest product first.
fn falling_products(random: &mut Random, number: u64, factors: usize) -> Vec<u64> {
    let mut product = number;
    let mut products = Vec::new();
    for _ in 0..factors {
        product *= random.pick(&[2, 2, 3, 3, 5]);
        products.push(product);
    }
    products.reverse();
    products
}

/// Each open splits the root, as long as a class is free. When the first line alone is left, the
/// root is joined as often as it was split.
fn root_split_again_and_again(random: &mut Random) -> Opens {
    (falling_products(random, 1, 5), 0..1)
}

/// A line under edge 0 of the root, and under each other edge a node, all of one weight, which are
/// split after that. Without the first line, what joins the last of them joins the root too.
fn equal_nodes_split(random: &mut Random) -> Opens {
    let edges = random.pick(&[3, 3, 4]);
    let products = falling_products(random, edges, 3);
    let nodes = edges as usize - 1;
    let equal = vec![products[0]; nodes];
    let periods = [&[edges], equal.as_slice(), &products[1..]].concat();
    (periods, 1..1 + nodes)
}

/// The root has a line and nodes when it is split. A new node that has nodes only could be joined,
/// but stays till a line below it closes. Later opens bring about more of these.
fn root_over_lines_and_nodes_split(random: &mut Random) -> Opens {
    let edges = random.pick(&[3, 4]);
    let first = edges * random.pick(&[2, 3]);
    let longer = first * random.pick(&[2, 3, 5]);
    let nodes = vec![longer; edges as usize - 2];
    let periods = [&[first], nodes.as_slice(), &[edges], &[longer; 6]].concat();
    (periods, 1..2)
}

/// Draws the orders of one list.
pub struct Drawing {
    stock: Stock,
    next_line: usize,
    next_period: usize,
}

impl Drawing {
    pub fn new(stock: Stock) -> Drawing {
        Drawing {
            stock,
            next_line: 0,
            next_period: 0,
        }
    }

    /// The bytes of the next order.
    pub fn order(&mut self, random: &mut Random) -> [u8; ORDER_BYTES] {
        let share = random.below(100);
        if share < self.stock.opens {
            self.open(random)
        } else if share < self.stock.opens + self.stock.closes {
            self.close(random)
        } else {
            self.faulty(random)
        }
    }

    fn open(&mut self, random: &mut Random) -> [u8; ORDER_BYTES] {
        let (line, period) = (self.line(random), self.period(random));
        pack(0, line, period).expect("the stock is within the fields")
    }

    fn close(&mut self, random: &mut Random) -> [u8; ORDER_BYTES] {
        let line = random.pick(&self.stock.closed);
        pack(1, line, 0).expect("the stock is within the fields")
    }

    /// Period 0, set filler bits, kind 2, kind 3 or a close with a period. It takes no turn.
    fn faulty(&mut self, random: &mut Random) -> [u8; ORDER_BYTES] {
        let turns = (self.next_line, self.next_period);
        let [first, second, third] = self.open(random);
        (self.next_line, self.next_period) = turns;
        let filler = 1 + random.below(15) as u8;
        match random.below(6) {
            0 => [first, 0, 0],
            1 => [first, second, third | filler],
            2 => [first | 0x40, 0, filler],
            3 => [first | 0x80, second, third],
            4 => [first | 0xc0, 0, 0],
            _ => [first | 0x40, second, third],
        }
    }

    /// Periods are taken in turn, and for the first time.
    fn is_first_time(&self) -> bool {
        self.stock.periods_in_turn && self.next_period < self.stock.periods.len()
    }

    /// Three times in four the next line in turn, else any.
    fn line(&mut self, random: &mut Random) -> u64 {
        if random.below(4) == 0 && !self.is_first_time() {
            return random.pick(&self.stock.lines);
        }
        let at = self.next_line % self.stock.lines.len();
        self.next_line += 1;
        self.stock.lines[at]
    }

    /// In turn seven times in eight, if the stock says so, else any.
    fn period(&mut self, random: &mut Random) -> u64 {
        let any = !self.stock.periods_in_turn || random.below(8) == 0;
        if any && !self.is_first_time() {
            return random.pick(&self.stock.periods);
        }
        let at = self.next_period % self.stock.periods.len();
        self.next_period += 1;
        self.stock.periods[at]
    }
}

#[cfg(test)]
mod tests {
    use super::*;
    use crate::ask::show;
    use crate::orders::{read, Order};
    use crate::reason::nodes;
    use crate::tree::Plan;
    use crate::trial::trial;
    use std::collections::BTreeSet;

    /// Prime factors, each as often as it divides.
    fn prime_factors(number: u64) -> usize {
        match (2..=number).find(|&divisor| number.is_multiple_of(divisor)) {
            Some(divisor) => 1 + prime_factors(number / divisor),
            None => 0,
        }
    }

    #[test]
    fn primes_have_one_or_two_prime_factors() {
        let mut random = Random::new(5);
        for _ in 0..100 {
            for period in Shape::Primes.stock(&mut random).periods {
                assert!((1..=2).contains(&prime_factors(period)), "{period}");
            }
        }
    }

    /// Some orders are faulty and some close lines; these take no turn.
    #[test]
    fn the_first_opens_of_deep_lists_are_in_turn() {
        let mut random = Random::new(7);
        for _ in 0..100 {
            let stock = Shape::Deep.stock(&mut random);
            let turns = stock.lines.iter().copied().zip(stock.periods.clone());
            let turns: Vec<(u64, u64)> = turns.collect();
            let mut drawing = Drawing::new(stock);
            let mut opens = Vec::new();
            while opens.len() < turns.len() {
                match read(drawing.order(&mut random)) {
                    Ok(Order::Open { line, period }) if period > 0 => {
                        opens.push((line.into(), period.into()));
                    }
                    _ => {}
                }
            }
            assert_eq!(opens, turns);
        }
    }

    /// With rising periods, and without a close between them: the factors 1 and 3 have 11 of
    /// them, 5 and 7 have 10, and 9 has 9.
    #[test]
    fn rising_periods_of_deep_lists_add_a_node_each() {
        let mut random = Random::new(8);
        let mut most = BTreeSet::new();
        for _ in 0..200 {
            let periods = Shape::Deep.stock(&mut random).periods;
            if !periods.is_sorted() {
                continue;
            }
            let mut plan = Plan::empty();
            for (line, &period) in (0..).zip(&periods) {
                plan.open(line, period).unwrap();
            }
            let path = show(&plan, periods.len() as u64 - 1).unwrap().path;
            let nodes = path.iter().filter(|row| row.weight > 0).count();
            assert_eq!(nodes, BTreeSet::from_iter(&periods).len(), "{periods:?}");
            most.insert(nodes);
        }
        assert_eq!(most, BTreeSet::from([9, 10, 11]));
    }

    /// Of the periods opened in turn at least one splits a node. When all lines are closed but
    /// those that are seldom closed, one node is left.
    #[test]
    fn closes_of_joining_lists_join_what_was_split() {
        let mut random = Random::new(9);
        for _ in 0..200 {
            let stock = Shape::Joining.stock(&mut random);
            let mut plan = Plan::empty();
            let mut splits = 0;
            for (&line, &period) in stock.lines.iter().zip(&stock.periods) {
                let told = trial(&plan, line, period);
                splits += usize::from(told.is_ok_and(|told| told.split));
                let _ = plan.open(line, period);
            }
            assert!(splits > 0, "{:?}", stock.periods);
            for &line in &stock.lines {
                let times = stock.closed.iter().filter(|&&closed| closed == line);
                if times.count() > 1 {
                    let _ = plan.close(line);
                }
            }
            assert_eq!(nodes(&plan).len(), 1, "{:?} {plan:?}", stock.periods);
        }
    }

    #[test]
    fn every_stock_is_within_the_fields() {
        let mut random = Random::new(6);
        for shape in Shape::ALL.repeat(100) {
            let stock = shape.stock(&mut random);
            assert!(stock.lines.iter().all(|&line| line <= 63));
            assert!(stock.closed.iter().all(|it| stock.lines.contains(it)));
            assert!(stock.periods.iter().all(|p| (1..=4_095).contains(p)));
            assert!(stock.opens + stock.closes < 100);
        }
    }

    #[test]
    fn shapes_are_named() {
        let names = ["sparse", "full", "deep", "primes", "joining"];
        let shapes: Vec<Shape> = names.iter().filter_map(|it| Shape::named(it)).collect();
        assert_eq!(shapes, Shape::ALL);
        assert_eq!(Shape::named("Sparse"), None);
    }
}
