//! The image of a plan, written and read. What is expected is worked out by hand from document 02, Ask 9.

mod fields;
mod plans;

use fields::{image, packed, Path};
use gaplinte::{raw, Line, Owner, Period, Plan, Refusal, Round, Start};
use plans::{case_f, opened, CASE_A, CASE_C};
use std::array;

/// The paths of marked case A have 2, 2, 3 and 3 rows: 7 + 4 * 10 + 10 * 24 bits are 287, and one more fills 36 bytes.
const IMAGE_OF_CASE_A: [u8; 36] = [
    0x08, 0x09, 0x00, 0x10, 0x00, 0x00, 0x10, 0x00, 0x04, 0x40, 0x04, 0x00, 0x20, 0x06, 0x00, 0x01,
    0x98, 0x01, 0x00, 0x00, 0x01, 0x00, 0x08, 0x01, 0x00, 0x00, 0x86, 0x00, 0x40, 0x02, 0x00, 0x60,
    0x02, 0x00, 0x40, 0x00,
];

/// The plan has this image, and the image gives back the plan.
fn expect(plan: &Plan, image: &[u8]) {
    assert_eq!(plan.to_image(), image);
    assert_eq!(Plan::from_image(image).as_ref(), Ok(plan));
}

/// Bytes that are read neither on the empty plan nor on others, which stay as found.
fn refused(bytes: &[u8], refusal: Refusal) {
    assert_eq!(Plan::from_image(bytes), Err(refusal), "{bytes:x?}");
    let no_tree = Plan::from_record([1; raw::PLAN_NUMBERS]);
    for found in [Plan::new(), opened(&CASE_A), no_tree] {
        let mut plan = found.clone();
        assert_eq!(plan.read_image(bytes), Err(refusal), "{bytes:x?}");
        assert_eq!(plan.record(), found.record());
    }
}

#[test]
fn of_the_empty_plan() {
    expect(&Plan::new(), &[0x00]);
    let mut emptied = opened(&CASE_A);
    for line in 1..=4 {
        assert_eq!(emptied.close(Line(line)), Ok(()));
    }
    expect(&emptied, &[0x00]);
}

/// In case F the path of line k has k - 1 rows of weight 2 and edge 1, and one of weight 2 and edge 0.
#[test]
fn of_marked_cases() {
    expect(&opened(&CASE_A), &IMAGE_OF_CASE_A);
    let case_c: [Path; 3] = [
        (1, &[(6, 0)]),
        (2, &[(6, 1), (2, 0)]),
        (3, &[(6, 2), (2, 0)]),
    ];
    expect(&opened(&CASE_C), &image(&case_c));
    let of_line = |k: usize| [vec![(2, 1); k - 1], vec![(2, 0)]].concat();
    let rows: Vec<_> = (1..=11).map(of_line).collect();
    let of_case_f: Vec<Path> = (1..).zip(rows.iter().map(Vec::as_slice)).collect();
    expect(&opened(&case_f()), &image(&of_case_f));
}

/// Whatever the plan was before, it has the image's tree, and nothing else.
#[test]
fn read_in_the_place_of_another_plan() {
    let no_tree = Plan::from_record([9; raw::PLAN_NUMBERS]);
    let two_lines = opened(&[(7, 0), (7, 1)]);
    for mut plan in [Plan::new(), two_lines, opened(&case_f()), no_tree] {
        assert_eq!(plan.read_image(&IMAGE_OF_CASE_A), Ok(()));
        assert_eq!(plan, opened(&CASE_A));
        assert_eq!(plan.read_image(&[0x00]), Ok(()));
        assert_eq!(plan, Plan::new());
    }
}

/// The 24 finds edge 2 of the node with offset 1 and step 2 free. Without lines 2 and 4 the root is joined.
#[test]
fn bookings_go_on() {
    let mut plan = Plan::from_image(&IMAGE_OF_CASE_A).unwrap();
    assert_eq!(plan.open(Line(4), Period(12)), Err(Refusal::LineOpen));
    assert_eq!(plan.open(Line(5), Period(2)), Err(Refusal::NoCandidate));
    assert_eq!(plan.open(Line(5), Period(24)), Ok(Start(5)));
    assert_eq!(plan.owner(Round(29)), Owner::Line(Line(5)));
    for line in [5, 4, 2] {
        assert_eq!(plan.close(Line(line)), Ok(()));
    }
    expect(&plan, &image(&[(1, &[(4, 0)]), (3, &[(4, 2), (2, 0)])]));
}

/// Bytes behind the image are left alone. Of a shorter buffer no byte is written.
#[test]
fn into_buffers() {
    let no_tree = Plan::from_record([1; raw::PLAN_NUMBERS]);
    for (plan, image) in [
        (Plan::new(), vec![0x00]),
        (opened(&CASE_A), IMAGE_OF_CASE_A.to_vec()),
        longest(),
        (no_tree, vec![0x00]),
    ] {
        let (found, length) = (plan.clone(), image.len());
        for room in [0, length / 2, length - 1] {
            let mut buffer = vec![0xee; room];
            assert_eq!(plan.write_image(&mut buffer), Err(Refusal::BufferTooShort));
            assert_eq!(buffer, vec![0xee; room]);
        }
        for more in [0, 1, 9, 70_000] {
            for byte in [0x00, 0x5a, 0xff] {
                let mut buffer = vec![byte; length + more];
                assert_eq!(plan.write_image(&mut buffer), Ok(length));
                assert_eq!(buffer, [image.clone(), vec![byte; more]].concat());
            }
        }
        assert_eq!(plan.record(), found.record());
    }
}

/// At any byte. That a field is cut off comes before its range, and before all that is wrong with earlier lines.
#[test]
fn fields_cut_off() {
    for length in 0..IMAGE_OF_CASE_A.len() {
        refused(&IMAGE_OF_CASE_A[..length], Refusal::ImageLength);
    }
    // 64 lines; a bit of the line; three bits of a length of 14 or more, and seven bits of a weight
    for bytes in [&[0x80][..], &[0x03], &[0x02, 0x07], &[0x02, 0x00, 0x80]] {
        refused(bytes, Refusal::ImageLength);
    }
    for paths in ILLEGAL_TREES {
        let mut bytes = image(paths);
        bytes.pop();
        refused(&bytes, Refusal::ImageLength);
    }
}

/// Before a later field that is cut off, bytes behind the last one, and all that is wrong with earlier lines.
#[test]
fn fields_out_of_range() {
    refused(&[0x82], Refusal::ImageField);
    let line = |length| vec![(7, 3), (6, 5), (4, length)];
    let row = |weight| [(12, weight), (12, 2)];
    let eleven = [line(11), row(2).repeat(10), row(0)[..1].to_vec()].concat();
    let second = [line(1), row(2).to_vec(), vec![(6, 5), (4, 0)]].concat();
    let lengths = [0, 12, 13, 14, 15].map(line);
    let counts = [65, 66, 127].map(|count| vec![(7, count)]);
    let weights = [[line(1), row(0)[..1].to_vec()].concat(), eleven, second];
    for fields in lengths.into_iter().chain(counts).chain(weights) {
        let bytes = packed(&fields);
        refused(&bytes, Refusal::ImageField);
        for byte in [0x00, 0xff] {
            refused(
                &[bytes.as_slice(), &[byte; 40]].concat(),
                Refusal::ImageField,
            );
        }
    }
}

/// Before a 1 behind the last field, and before an illegal tree.
#[test]
fn bytes_behind_the_last_one() {
    let illegal = ILLEGAL_TREES.iter().map(|paths| image(paths));
    for image in [vec![0x00], vec![0x01], IMAGE_OF_CASE_A.to_vec()]
        .into_iter()
        .chain(illegal)
    {
        for more in [&[0x00][..], &[0x01], &[0xff], &image] {
            refused(&[&image, more].concat(), Refusal::ImageLength);
        }
    }
}

/// One line under one node leaves 7 of them, two lines leave 5, and so on.
#[test]
fn bits_that_fill_the_last_byte() {
    refused(&[0x01], Refusal::ImageField);
    let rows = [[(4095, 0)], [(4095, 1)], [(4095, 2)], [(4095, 3)]];
    let paths: Vec<Path> = (0..).zip(rows.iter().map(|rows| rows.as_slice())).collect();
    for (count, filling) in [(1, 7), (2, 5), (3, 3), (4, 1)] {
        let image = image(&paths[..count]);
        assert!(Plan::from_image(&image).is_ok());
        for bit in 0..filling {
            let mut bytes = image.clone();
            *bytes.last_mut().unwrap() |= 1 << bit;
            refused(&bytes, Refusal::ImageField);
        }
    }
}

const ILLEGAL_TREES: &[&[Path]] = &[
    // an edge that is not below its weight
    &[(5, &[(2, 2)])],
    &[(5, &[(2, 4095)])],
    &[(5, &[(4095, 4095)])],
    &[(5, &[(2, 1), (3, 3)])],
    &[(5, &[(2, 0)]), (6, &[(2, 1), (3, 1), (2, 2)])],
    // a period above 4,095: 4,096, 65,536 + 5 and 2^32 + 4, of which the last two could be cut, and the largest of all
    &[(5, &[(2, 0), (2048, 0)])],
    &[(5, &[(3121, 0), (21, 0)])],
    &[(5, &[(2642, 0), (2501, 0), (650, 0)])],
    &[(5, &[(4095, 0); 11])],
    // a weight of 1 that is not alone, or not above edge 0
    &[(5, &[(1, 1)])],
    &[(5, &[(1, 0), (2, 0)])],
    &[(5, &[(2, 0), (1, 0)])],
    &[(5, &[(1, 0), (1, 0)])],
    &[(5, &[(1, 0)]), (6, &[(1, 0)])],
    &[(5, &[(1, 0)]), (6, &[(2, 1)])],
    // two weights at one place
    &[(5, &[(2, 0)]), (6, &[(3, 1)])],
    &[(5, &[(2, 0), (2, 0)]), (6, &[(2, 0), (3, 1)])],
    &[
        (5, &[(2, 0), (2, 0)]),
        (6, &[(2, 1)]),
        (7, &[(2, 0), (4, 1)]),
    ],
    // a line on another's way, or at its place
    &[(5, &[(2, 0)]), (6, &[(2, 0), (2, 1)])],
    &[(5, &[(2, 0), (2, 1)]), (6, &[(2, 0)])],
    &[
        (5, &[(2, 1), (3, 2)]),
        (6, &[(2, 0)]),
        (7, &[(2, 1), (3, 2)]),
    ],
    // line numbers that fall or are equal
    &[(6, &[(2, 0)]), (5, &[(2, 1)])],
    &[(63, &[(2, 0)]), (0, &[(2, 1)])],
    &[(5, &[(3, 0)]), (7, &[(3, 1)]), (6, &[(3, 2)])],
    &[(5, &[(2, 0)]), (5, &[(2, 1)])],
    &[(5, &[(2, 0)]), (5, &[(2, 0)])],
];

#[test]
fn illegal_trees() {
    for paths in ILLEGAL_TREES {
        refused(&image(paths), Refusal::ImageField);
    }
}

/// Also one of which a close would join nodes.
#[test]
fn legal_trees() {
    let trees: [&[Path]; 7] = [
        &[(63, &[(1, 0)])],
        &[(0, &[(4095, 4094)])],
        &[(5, &[(3, 2), (1365, 1364)])],
        &[(5, &[(2, 1); 11])],
        &[(5, &[(2, 0), (2, 1)]), (6, &[(2, 1), (2, 0)])],
        &[(5, &[(2, 0), (2, 1)]), (6, &[(2, 1), (3, 0)])],
        &[
            (5, &[(4, 3)]),
            (6, &[(4, 2)]),
            (7, &[(4, 1)]),
            (8, &[(4, 0)]),
        ],
    ];
    for paths in trees {
        let image = image(paths);
        let plan = Plan::from_image(&image).unwrap();
        assert!(plan.is_tree());
        expect(&plan, &image);
        let shown = paths
            .iter()
            .map(|&(line, rows)| (Line(line.into()), period_and_start(rows)));
        assert!(plan
            .lines()
            .map(|it| (it.line, (it.period, it.start)))
            .eq(shown));
    }
}

fn period_and_start(rows: &[(u16, u16)]) -> (Period, Start) {
    let (mut step, mut start) = (1, 0);
    for &(weight, edge) in rows {
        start += u64::from(edge) * step;
        step *= u64::from(weight);
    }
    (Period(step), Start(start))
}

/// 64 lines, each under 11 nodes of weight 2, as a record and as an image. A line's edges are the bits of its number,
/// the least first, over and over.
fn longest() -> (Plan, Vec<u8>) {
    let row = |line: usize, level: usize| (2, (line >> (level % 6) & 1) as u16);
    let paths: [[(u16, u16); 11]; 64] =
        array::from_fn(|line| array::from_fn(|level| row(line, level)));
    let mut record = [0; raw::PLAN_NUMBERS];
    for (numbers, (weight, edge)) in record.chunks_mut(2).zip(paths.iter().flatten()) {
        numbers.copy_from_slice(&[*weight, *edge]);
    }
    let rows = paths.iter().map(|rows| rows.as_slice());
    let paths: Vec<Path> = (0..).zip(rows).collect();
    (Plan::from_record(record), image(&paths))
}

#[test]
fn the_longest() {
    let (plan, image) = longest();
    assert!(plan.is_tree());
    assert_eq!(image.len(), raw::IMAGE_BYTES);
    expect(&plan, &image);
    for length in 0..image.len() {
        refused(&image[..length], Refusal::ImageLength);
    }
    refused(&[image.as_slice(), &[0]].concat(), Refusal::ImageLength);
    let with = |place, byte| {
        let mut bytes = image.clone();
        bytes[place] |= byte;
        bytes
    };
    refused(&with(2192, 0x01), Refusal::ImageField);
    // 65 lines
    refused(&with(0, 0x02), Refusal::ImageField);
    // 63 lines: bytes follow the last one
    let mut fewer = image.clone();
    fewer[0] = 0x7e;
    refused(&fewer, Refusal::ImageLength);
}
