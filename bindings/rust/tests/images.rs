//! Images put to the second program too: plans that both write and read, and bytes that both read, most of which are
//! nearly an image. Every answer agrees, and so does every path that a plan has afterwards.

mod both;
mod drawn_images;
mod fields;

use both::{numbers, plans, Both};
use drawn_images::drawn;
use gaplinte::{Plan, Refusal};
use second::image as of_second;
use second::random::Random;
use second::record::drawn_write;
use second::shapes::Shape;
use second::{lists, orders};
use std::collections::{BTreeMap, BTreeSet};

impl Both {
    /// The image that both write, into a buffer that is longer by so many bytes, into one that is as long, and not into
    /// one that is shorter.
    fn image(&self, more: usize) -> Vec<u8> {
        let image = of_second::image(&self.held.plan);
        assert_eq!(self.plan.to_image(), image);
        let length = image.len();
        for room in [length - 1, length, length + more] {
            let mut buffer = vec![0xee; room];
            let mut expected = buffer.clone();
            let answer = self.plan.write_image(&mut buffer);
            let answer = answer.map_err(Refusal::number);
            let told = of_second::write(&self.held.plan, &mut expected);
            assert_eq!(answer, told.map_err(second::refusal::Refusal::number));
            assert_eq!(buffer, expected);
        }
        image
    }

    /// Reads bytes into both, and gives the number of the refusal, 0 where there is none. Each path is then the same:
    /// it is as found where the bytes are refused, else they are its image.
    fn read(&mut self, bytes: &[u8]) -> u8 {
        let answer = self
            .plan
            .read_image(bytes)
            .map_or_else(Refusal::number, |()| 0);
        let expected = self.held.read_image(bytes);
        let expected = expected.map_or_else(second::refusal::Refusal::number, |()| 0);
        assert_eq!(answer, expected, "{bytes:x?}");
        assert_eq!(
            *self.plan.record(),
            numbers(&self.held.record),
            "{bytes:x?}"
        );
        if answer == 0 {
            assert!(self.plan.is_tree());
            assert_eq!(self.plan.to_image(), bytes);
        }
        answer
    }
}

/// Also into the plan that was read before.
#[test]
fn written_and_read_back() {
    let mut other = Both::empty();
    for plan in plans(31, 40) {
        let image = plan.image(9);
        assert_eq!(other.read(&image), 0);
        assert_eq!(other.plan, plan.plan);
        assert_eq!(Plan::from_image(&image), Ok(plan.plan));
    }
}

/// The rest of a list goes on from the image as from the plan itself, and another list from a drawn tree.
#[test]
fn bookings_go_on() {
    let mut random = Random::new(32);
    for plan in plans(32, 10) {
        let mut other = Both::empty();
        assert_eq!(other.read(&plan.image(1)), 0);
        let mut plan = plan;
        let shape = random.pick(&Shape::ALL);
        for orders in lists::generate(shape, &mut random).chunks(3 * 8) {
            plan.run(orders);
            other.run(orders);
            assert_eq!(other.plan, plan.plan);
            assert_eq!(other.image(2), plan.image(3));
        }
    }
}

/// Two images are the same if and only if the trees are. Many of the plans here are equal to another: they have two
/// lines at most, of short periods.
#[test]
fn equal_images() {
    let mut random = Random::new(33);
    let mut plans = plans(33, 4);
    for _ in 0..2000 {
        let mut plan = Both::empty();
        for _ in 0..random.below(8) {
            let (line, period) = (random.below(2), 1 + random.below(4));
            let open = orders::pack(0, line, period).unwrap();
            let close = orders::pack(1, line, 0).unwrap();
            plan.run(&random.pick(&[open, close]));
        }
        plans.push(plan);
    }
    let with_image = |it: &Both| (it.image(1), *it.plan.record());
    let pairs: BTreeSet<_> = plans.iter().map(with_image).collect();
    let images: BTreeSet<_> = pairs.iter().map(|(image, _)| image).collect();
    let records: BTreeSet<_> = pairs.iter().map(|(_, record)| record).collect();
    assert_eq!((images.len(), records.len()), (pairs.len(), pairs.len()));
    assert!(pairs.len() > 100 && plans.len() - pairs.len() > 1000);
}

/// Records with numbers written over. One that is no tree has the image of the empty plan, is as found where bytes are
/// refused, and is gone where an image is read.
#[test]
fn damaged_records() {
    let mut random = Random::new(34);
    let mut seen = [0; 2];
    for mut plan in plans(34, 10) {
        for _ in 0..8 {
            let (place, number) = drawn_write(&plan.held.record, &mut random);
            plan.held.write(place, number);
            plan = Both::of(plan.held);
            let is_tree = plan.plan.is_tree();
            seen[usize::from(is_tree)] += 1;
            let image = plan.image(1);
            assert!(is_tree || image == [0x00]);
            assert_eq!(plan.read(&[]), 13);
            assert_eq!(plan.read(&[0x01]), 14);
            assert_eq!(plan.clone().read(&image), 0);
        }
    }
    assert!(seen.iter().all(|&count| count > 100), "{seen:?}");
}

fn images(seed: u64, lists_of_a_shape: usize) -> Vec<Vec<u8>> {
    let plans = plans(seed, lists_of_a_shape).into_iter();
    plans.map(|it| it.image(1)).collect()
}

#[test]
fn cut_short_at_each_byte() {
    let mut plan = Both::empty();
    for image in images(35, 3) {
        for length in 0..image.len() {
            assert_eq!(plan.read(&image[..length]), 13);
        }
        assert_eq!(plan.read(&image), 0);
    }
}

/// Each bit of an image of at most 400 bytes, and of a longer one 3,200 bits, drawn. Often it is then the image of
/// another plan.
#[test]
fn one_bit_turned() {
    let mut random = Random::new(36);
    let mut plan = Both::empty();
    let mut seen = BTreeMap::new();
    for mut image in images(36, 1) {
        for bit in bits_to_turn(image.len(), &mut random) {
            image[bit / 8] ^= 1 << (bit % 8);
            *seen.entry(plan.read(&image)).or_insert(0) += 1;
            image[bit / 8] ^= 1 << (bit % 8);
        }
    }
    assert!(seen.keys().eq(&[0, 13, 14]), "{seen:?}");
    assert!(seen.values().all(|&count| count > 500), "{seen:?}");
}

fn bits_to_turn(length: usize, random: &mut Random) -> Vec<usize> {
    let bits = 8 * length;
    if length <= 400 {
        return (0..bits).collect();
    }
    let any = |_| random.below(bits as u64) as usize;
    (0..3200).map(any).collect()
}

/// The kinds of drawn bytes with the numbers that answer them, 0 where an image is read.
const ANSWERS: [(&str, u8); 19] = [
    ("a legal tree", 0),
    ("a line on another's way", 14),
    ("a period out of range", 14),
    ("a weight of 1 not alone", 14),
    ("an edge not below its weight", 14),
    ("an image cut short", 13),
    ("an image with bits turned", 0),
    ("an image with bits turned", 13),
    ("an image with bits turned", 14),
    ("an image with bytes behind it", 13),
    ("any bytes", 0),
    ("any bytes", 13),
    ("any bytes", 14),
    ("line numbers that do not rise", 14),
    ("more than one of these", 14),
    ("two images spliced", 0),
    ("two images spliced", 13),
    ("two images spliced", 14),
    ("two weights at one place", 14),
];

/// Reads so many drawn bytes, and tells how often each kind was answered with each number. Each answer is met.
fn read_drawn(seed: u64, count: usize) -> BTreeMap<(&'static str, u8), usize> {
    let images = images(seed, 10);
    let mut random = Random::new(seed);
    let mut plan = Both::empty();
    let mut seen = BTreeMap::new();
    for _ in 0..count {
        let (kind, bytes) = drawn(&images, &mut random);
        *seen.entry((kind, plan.read(&bytes))).or_insert(0) += 1;
    }
    assert!(seen.keys().eq(&ANSWERS), "{seen:?}");
    seen
}

#[test]
fn drawn_bytes() {
    read_drawn(37, 20_000);
}

/// Not run by the gate, where it would take 40 seconds. Optimized it takes a few:
///
///     cargo test --release --offline --manifest-path bindings/rust/Cargo.toml --test images -- --ignored --nocapture
#[test]
#[ignore = "takes 40 seconds where it is not optimized"]
fn a_million_drawn_bytes() {
    let seen = read_drawn(38, 1_000_000);
    let mut of_number = BTreeMap::new();
    for ((kind, number), count) in seen {
        println!("{kind}, answered with {number}: {count}");
        *of_number.entry(number).or_insert(0) += count;
    }
    println!("{of_number:?}");
}
