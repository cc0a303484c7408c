//! Images by both: the same bytes of a plan, and the same record of bytes.

use super::each_plan;
use crate::inputs::{deep_plan_of, image_of, plan_of, plan_of_powers};
use crate::measure::{DEEP_LINES, LINES};
use crate::{Record, LIBRARY, PLAIN, RECORD};

const PLANS: usize = 2_000;

/// How many damaged images are read for each plan.
const DAMAGED: usize = 50;

/// What was seen of the generated plans' images, and of the damaged copies.
#[derive(Default)]
struct SeenImages {
    written: usize,
    refused_8: usize,
    longest: usize,
    read: usize,
    refused_13: usize,
    refused_14: usize,
}

impl SeenImages {
    /// Notes an answer to a writing.
    fn writing(&mut self, answer: i64) {
        match answer {
            -8 => self.refused_8 += 1,
            1.. => self.written += 1,
            _ => panic!("{answer} is no answer of a writing"),
        }
    }

    /// Notes an answer to a reading of a damaged image.
    fn reading(&mut self, answer: i64) {
        match answer {
            0 => self.read += 1,
            -13 => self.refused_13 += 1,
            -14 => self.refused_14 += 1,
            _ => panic!("{answer} is no answer of a reading"),
        }
    }

    fn print(&self) {
        println!(
            "  {} written, {} refused with 8; images of up to {} bytes",
            self.written, self.refused_8, self.longest
        );
        println!(
            "  of the damaged images {} read, {} refused with 13, {} with 14",
            self.read, self.refused_13, self.refused_14
        );
    }
}

/// The image of a record by both, with so many bytes lent: the same answer, which is returned, and the same bytes.
fn compare_writing(rows: &Record, room: usize) -> i64 {
    let lent = vec![0xa5; room];
    let (mut image, mut other) = (lent.clone(), lent.clone());
    let answer = (LIBRARY.write_image)(rows, &mut image);
    let other_answer = (PLAIN.write_image)(rows, &mut other);
    assert_eq!(answer, other_answer, "the answers differ");
    assert!(image == other, "the bytes differ");
    let written = answer.max(0) as usize;
    let kept = image[written..] == lent[written..];
    assert!(kept, "bytes behind the image are changed");
    answer
}

/// Bytes read by both into a record: the same answer, which is returned, and the same record. What is read has these bytes
/// as its image.
fn compare_reading(rows: &Record, image: &[u8]) -> i64 {
    let (mut read, mut other) = (*rows, *rows);
    let answer = (LIBRARY.read_image)(&mut read, image);
    let other_answer = (PLAIN.read_image)(&mut other, image);
    assert_eq!(answer, other_answer, "the answers differ");
    assert!(read == other, "the records differ");
    match answer {
        0 => assert!(image_of(&read) == image, "the image is of another plan"),
        _ => assert!(read == *rows, "a refusal changed the record"),
    }
    answer
}

/// Images of plans that lists leave, empty ones among them, some with too short a buffer. Every fourth is of a damaged copy.
/// Each plan's image is read, and so are damaged copies of it.
pub fn compare_images() {
    let mut images = SeenImages::default();
    let seen = each_plan(PLANS, 50, |rows, record, numbers| {
        let image = image_of(record);
        let room = match numbers.below(8) {
            0 => numbers.below(image.len() as u64) as usize,
            _ => image.len() + numbers.below(4) as usize,
        };
        images.writing(compare_writing(record, room));
        images.longest = images.longest.max(image.len());
        assert_eq!(compare_reading(rows, &image), 0, "the image is read");
        for _ in 0..DAMAGED {
            let damaged = numbers.damaged_image(&image);
            images.reading(compare_reading(rows, &damaged));
        }
    });
    println!("images of {PLANS} plans, and {DAMAGED} damaged copies of each: equal answers, bytes and records");
    images.print();
    seen.print_records();
}

/// The images of a plan: what is read has the plan's record.
fn compare_image_of(rows: &Record) {
    let image = image_of(rows);
    assert_eq!(compare_writing(rows, image.len()), image.len() as i64);
    let mut read = [0; RECORD];
    assert_eq!(compare_reading(&read, &image), 0);
    (LIBRARY.read_image)(&mut read, &image);
    assert!(read == *rows, "another plan is read");
}

/// The images that are measured, and that of case F's plan.
pub fn compare_measured_images() {
    let plans = LINES.map(|lines| plan_of(lines as u64));
    let deep_plans = DEEP_LINES.map(|lines| deep_plan_of(lines as u64));
    for rows in plans.iter().chain(&deep_plans).chain([&plan_of_powers()]) {
        compare_image_of(rows);
    }
}
