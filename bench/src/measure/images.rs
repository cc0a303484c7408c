//! The tasks of images: one plan's image, written and read.

use super::{Task, TOGETHER};
use crate::inputs::{deep_plan_of, image_of, plan_of};
use crate::{Calls, Record, IMAGE};
use std::hint::black_box;

fn write_image(calls: Calls, rows: &Record, image: &mut [u8]) {
    let answer = (calls.write_image)(black_box(rows), black_box(image));
    assert!(0 < answer, "the image is written");
}

fn read_image(calls: Calls, rows: &mut Record, image: &[u8]) {
    let answer = (calls.read_image)(black_box(rows), black_box(image));
    assert_eq!(answer, 0, "the image is read");
}

fn writes_of(calls: Calls, rows: Record) -> Task {
    let mut image = [0; IMAGE];
    Box::new(move || (0..TOGETHER).for_each(|_| write_image(calls, &rows, &mut image)))
}

/// The image is read into a record that has it already.
fn reads_of(calls: Calls, mut rows: Record) -> Task {
    let image = image_of(&rows);
    Box::new(move || (0..TOGETHER).for_each(|_| read_image(calls, &mut rows, &image)))
}

/// The image of a plan of so many lines is written.
pub fn writes(calls: Calls, lines: usize) -> Task {
    writes_of(calls, plan_of(lines as u64))
}

/// The same of a plan with nodes below nodes.
pub fn writes_deep(calls: Calls, lines: usize) -> Task {
    writes_of(calls, deep_plan_of(lines as u64))
}

/// The image of a plan of so many lines is read.
pub fn reads(calls: Calls, lines: usize) -> Task {
    reads_of(calls, plan_of(lines as u64))
}

/// The same of a plan with nodes below nodes.
pub fn reads_deep(calls: Calls, lines: usize) -> Task {
    reads_of(calls, deep_plan_of(lines as u64))
}
