//! Scripts of image calls, and what each call answers: the input and the expected output of the
//! test program that writes the images of one plan after another and reads bytes as images.
//!
//! A script is a sequence of steps. A step is a kind, then four numbers of 64 bits, most
//! significant byte first, those that are not named here 0: 33 bytes, as in `script.rs`. The kinds
//! 0 to 5 are those of `script.rs`: 0 opens (line, period), 1 closes (line), 2 begins again with
//! the empty plan, 3 writes a number into the record (place, number), 4 asks for an owner (round),
//! 5 shows (line). Three kinds more: 11 writes the image of the plan into a lent buffer of so many
//! bytes (room, byte), each of which is the given byte before the call; 12 reads so many bytes as
//! an image into the plan (count); 13 reads so many bytes cut short, one time after the other: none
//! of them, the first, the first two, and so on up to all but the last (count). The bytes of a 12
//! and of a 13 follow their step. Room and count are at most 4,096.
//!
//! The kinds 0 to 5 print what they print in `script.rs`. The others print two lines, 13 two for
//! each of its times: one of the call on a plan by value, then `lent` and the same of the call on a
//! lent record:
//! `write-image ROOM RESULT LENGTH BUFFER`, with `-` for the length where refused, and all lent
//! bytes after the call in hexadecimal, or `-` where none are lent;
//! `read-image COUNT RESULT`, and on the lent record `lent COUNT RESULT equal`: after the calls its
//! numbers are those of the plan by value, which is the plan of the next step.
//!
//! Whether a number that is written leaves the record a tree is decided in `record.rs`. It stays in
//! the record until an open or a close is carried out or an image is taken, since a refused call
//! leaves the plan as it was.

use crate::ask::{paths, Path};
use crate::drawn_images::{bits_to_turn, drawn_bytes, turn_bit};
use crate::drawn_trees::drawn_tree;
use crate::head::{self, HEAD_BYTES};
use crate::image::{self, image};
use crate::list_script::hexadecimal;
use crate::lists;
use crate::random::Random;
use crate::record::{drawn_write, Held};
use crate::refusal::Refusal;
use crate::script::{self, Step as Call};
use crate::shapes::Shape;
use crate::tree::{Plan, LAST_LINE};
use std::io::{self, Write};

/// The most bytes that are lent, and that are read.
pub(crate) const MOST_BYTES: usize = 4_096;

const LAST_CALL: u8 = 5;
const WRITE_IMAGE: u8 = 11;
const READ_IMAGE: u8 = 12;
const READ_CUT: u8 = 13;

#[derive(Clone, Debug, PartialEq, Eq)]
pub enum Step {
    /// One of the kinds 0 to 5.
    Call(Call),
    WriteImage {
        room: usize,
        byte: u8,
    },
    ReadImage(Vec<u8>),
    /// Cut short at each of its bytes, never the whole.
    ReadCut(Vec<u8>),
}

impl Step {
    fn write(&self, out: &mut impl Write) -> io::Result<()> {
        match self {
            Step::Call(call) => out.write_all(&call.bytes()),
            Step::WriteImage { room, byte } => {
                let numbers = [*room as u64, u64::from(*byte), 0, 0];
                out.write_all(&head::write(WRITE_IMAGE, numbers))
            }
            Step::ReadImage(bytes) => write_with(bytes, READ_IMAGE, out),
            Step::ReadCut(bytes) => write_with(bytes, READ_CUT, out),
        }
    }

    /// The first step of a script, and the script after it.
    fn read(script: &[u8]) -> Option<(Step, &[u8])> {
        let (bytes, rest) = script.split_first_chunk::<HEAD_BYTES>()?;
        let (kind, [first, second, ..]) = head::read(bytes);
        let count = usize::try_from(first).ok().filter(|&it| it <= MOST_BYTES);
        match kind {
            0..=LAST_CALL => Some((Step::Call(Call::of(*bytes)?), rest)),
            WRITE_IMAGE => {
                let (room, byte) = (count?, u8::try_from(second).ok()?);
                Some((Step::WriteImage { room, byte }, rest))
            }
            READ_IMAGE | READ_CUT => {
                let (bytes, rest) = rest.split_at_checked(count?)?;
                let is_whole = kind == READ_IMAGE;
                let step = if is_whole {
                    Step::ReadImage
                } else {
                    Step::ReadCut
                };
                Some((step(bytes.to_vec()), rest))
            }
            _ => None,
        }
    }

    /// What it reads as images, one after the other.
    fn reads(&self) -> Vec<&[u8]> {
        match self {
            Step::Call(_) | Step::WriteImage { .. } => Vec::new(),
            Step::ReadImage(bytes) => vec![bytes],
            Step::ReadCut(bytes) => (0..bytes.len()).map(|length| &bytes[..length]).collect(),
        }
    }
}

/// A step that its bytes follow.
fn write_with(bytes: &[u8], kind: u8, out: &mut impl Write) -> io::Result<()> {
    out.write_all(&head::write(kind, [bytes.len() as u64, 0, 0, 0]))?;
    out.write_all(bytes)
}

/// Writes the steps as a script.
pub fn write(steps: &[Step], out: &mut impl Write) -> io::Result<()> {
    steps.iter().try_for_each(|step| step.write(out))
}

/// Carries a script out. A step of an unknown kind, or one that is cut off, ends it.
pub fn print_answers(script: &[u8], out: &mut impl Write) -> io::Result<()> {
    let mut held = Held::empty();
    let mut rest = script;
    while let Some((step, after)) = Step::read(rest) {
        for bytes in step.reads() {
            print_read(&mut held, bytes, out)?;
        }
        match step {
            Step::Call(call) => script::print_step(&mut held, call, out)?,
            Step::WriteImage { room, byte } => print_written(&held.plan, room, byte, out)?,
            Step::ReadImage(_) | Step::ReadCut(_) => {}
        }
        rest = after;
    }
    Ok(())
}

/// A step without its answer.
pub(crate) fn change(held: &mut Held, step: &Step) {
    for bytes in step.reads() {
        // Where it is refused, the plan is as found.
        let _ = held.read_image(bytes);
    }
    if let Step::Call(call) = step {
        script::change(held, *call);
    }
}

fn print_written(plan: &Plan, room: usize, byte: u8, out: &mut impl Write) -> io::Result<()> {
    let mut buffer = vec![byte; room];
    let answer = match image::write(plan, &mut buffer) {
        Ok(length) => format!("0 {length}"),
        Err(refusal) => format!("{} -", refusal.number()),
    };
    let buffer = if room > 0 {
        hexadecimal(&buffer)
    } else {
        "-".to_string()
    };
    writeln!(out, "write-image {room} {answer} {buffer}")?;
    writeln!(out, "lent {room} {answer} {buffer}")
}

fn print_read(held: &mut Held, bytes: &[u8], out: &mut impl Write) -> io::Result<()> {
    let count = bytes.len();
    let result = held.read_image(bytes).map_or_else(Refusal::number, |()| 0);
    writeln!(out, "read-image {count} {result}")?;
    writeln!(out, "lent {count} {result} equal")
}

/// Images of at most so many bytes have every bit turned.
const SHORT: usize = 40;
/// Of longer images so many bits are drawn.
const DRAWN_TURNS: usize = 75;
/// Drawn bytes (`drawn_images.rs`).
const DRAWN: usize = 20;
/// Lines that are shown after an image is taken that has something changed, if there are so many.
const LINES_SHOWN: usize = 3;

/// The image of one plan after another is written, and read again where another plan stands, after
/// bytes that are mostly no image and itself cut short at each byte. Bookings go on from what was
/// read.
pub fn generated(seed: u64, count: u64, shape: Shape) -> Vec<Step> {
    let mut random = Random::new(seed);
    let mut composed = Composed {
        steps: Vec::new(),
        held: Held::empty(),
    };
    for _ in 0..count {
        composed.begin(shape, &mut random);
        composed.write_image(&mut random);
        let plan = composed.held.plan.clone();
        composed.another_plan(&mut random);
        for bytes in changed_images(&plan, &mut random) {
            composed.read_changed(bytes);
            if random.below(16) == 0 {
                composed.write_number(&mut random);
            }
        }
        composed.push(Step::ReadCut(image(&plan)));
        composed.whole();
        composed.push(Step::ReadImage(image(&plan)));
        composed.whole();
        composed.owners(&mut random);
        composed.book(shape, &mut random);
        composed.whole();
        composed.owners(&mut random);
    }
    composed.steps
}

/// A script, and what its steps leave.
struct Composed {
    steps: Vec<Step>,
    held: Held,
}

impl Composed {
    fn push(&mut self, step: Step) {
        change(&mut self.held, &step);
        self.steps.push(step);
    }

    /// The plan of a generated list, or every fourth time a drawn tree.
    fn begin(&mut self, shape: Shape, random: &mut Random) {
        self.push(Step::Call(Call::Begin));
        if random.below(4) == 0 {
            self.push(Step::ReadImage(image(&drawn_tree(random))));
        } else {
            self.book(shape, random);
        }
    }

    /// The opens and closes of a generated list.
    fn book(&mut self, shape: Shape, random: &mut Random) {
        for call in script::calls_of(&lists::generate(shape, random)) {
            self.push(Step::Call(call));
        }
    }

    /// Into a buffer that is too short, one of the image's length, and a longer one.
    fn write_image(&mut self, random: &mut Random) {
        let length = image(&self.held.plan).len();
        let shorter = length - 1 - random.below(length as u64) as usize;
        let longer = length + 1 + random.below(40) as usize;
        for room in [shorter, length, longer] {
            let byte = random.pick(&[0x00, 0x5a, 0xff]);
            self.push(Step::WriteImage { room, byte });
        }
    }

    /// Every third time the empty plan; otherwise a number of the record is written over, or lines
    /// are closed.
    fn another_plan(&mut self, random: &mut Random) {
        match random.below(3) {
            0 => self.push(Step::Call(Call::Begin)),
            1 => self.write_number(random),
            _ => {
                for _ in 0..4 {
                    self.push(Step::Call(Call::Close(random.below(LAST_LINE + 1))));
                }
            }
        }
    }

    fn write_number(&mut self, random: &mut Random) {
        let (place, number) = drawn_write(&self.held.record, random);
        self.push(Step::Call(Call::Write(place, number)));
    }

    /// If it is taken, some of the lines that it changes are shown.
    fn read_changed(&mut self, bytes: Vec<u8>) {
        let before = paths(&self.held.plan);
        self.push(Step::ReadImage(bytes));
        let after = paths(&self.held.plan);
        if after != before {
            self.push_whole_image();
            for line in lines_changed(&before, &after).into_iter().take(LINES_SHOWN) {
                self.push(Step::Call(Call::Show(line.into())));
            }
        }
    }

    fn push_whole_image(&mut self) {
        let (room, byte) = (image(&self.held.plan).len(), 0xee);
        self.push(Step::WriteImage { room, byte });
    }

    /// The image, every open line, and a line that is mostly not open.
    fn whole(&mut self) {
        self.push_whole_image();
        let lines = paths(&self.held.plan).into_iter().map(|path| path.line);
        for line in lines.chain([0]) {
            self.push(Step::Call(Call::Show(line.into())));
        }
    }

    /// Some of the rounds asked after a list.
    fn owners(&mut self, random: &mut Random) {
        let rounds = lists::rounds(&self.held.plan, random);
        for round in rounds.into_iter().step_by(3) {
            self.push(Step::Call(Call::Owner(round)));
        }
    }
}

/// Lines with other rows after than before, and those with none.
fn lines_changed(before: &[Path], after: &[Path]) -> Vec<u8> {
    let only_in = |one: &[Path], other: &[Path]| -> Vec<u8> {
        let others = one.iter().filter(|path| !other.contains(path));
        others.map(|path| path.line).collect()
    };
    let mut lines = [only_in(before, after), only_in(after, before)].concat();
    lines.sort_unstable();
    lines.dedup();
    lines
}

/// The image with one bit turned, and drawn bytes.
fn changed_images(plan: &Plan, random: &mut Random) -> Vec<Vec<u8>> {
    let image = image(plan);
    let with_bit_turned = |bit| {
        let mut turned = image.clone();
        turn_bit(&mut turned, bit);
        turned
    };
    let bits = bits_to_turn(image.len(), SHORT, DRAWN_TURNS, random);
    let mut images: Vec<_> = bits.into_iter().map(with_bit_turned).collect();
    images.extend((0..DRAWN).map(|_| drawn_bytes(plan, random)));
    images
}

#[cfg(test)]
pub(crate) mod tests {
    use super::*;
    use crate::head::scripts::{read_back, written};
    use crate::image_cases::cases;
    use crate::naive_image::{reading, Reading};
    use crate::naive_joining::plan_of;
    use std::collections::BTreeMap;

    fn script(steps: &[Step]) -> Vec<u8> {
        written(|script| write(steps, script))
    }

    pub(crate) fn printed(steps: &[Step]) -> String {
        String::from_utf8(written(|text| print_answers(&script(steps), text))).unwrap()
    }

    #[test]
    fn steps_are_read_back_from_their_bytes() {
        for steps in [cases(), generated(1, 8, Shape::Sparse)] {
            assert_eq!(read_back(&script(&steps), Step::read), steps);
        }
        let begin = Step::Call(Call::Begin);
        let whole = script(&[begin.clone(), Step::ReadImage(vec![1, 2, 3])]);
        for length in HEAD_BYTES..whole.len() {
            assert_eq!(
                read_back(&whole[..length], Step::read),
                std::slice::from_ref(&begin)
            );
        }
    }

    #[test]
    fn steps_outside_the_limits_are_not_read() {
        let step = |kind: u8, first: u64, second: u64| {
            let head = head::write(kind, [first, second, 0, 0]);
            let script = [head.to_vec(), vec![0; MOST_BYTES + 1]].concat();
            Step::read(&script).map(|(step, _)| step)
        };
        for (kind, first, second) in [
            (3, 0, 1 << 16),
            (6, 0, 0),
            (10, 0, 0),
            (11, 4_097, 0),
            (11, 1 << 32, 0),
            (11, 0, 256),
            (12, 4_097, 0),
            (12, u64::MAX, 0),
            (13, 4_097, 0),
            (14, 0, 0),
        ] {
            assert_eq!(step(kind, first, second), None, "{kind} {first} {second}");
        }
        let (room, byte) = (MOST_BYTES, 255);
        assert_eq!(step(11, 4_096, 255), Some(Step::WriteImage { room, byte }));
        let longest = vec![0; MOST_BYTES];
        assert_eq!(step(13, 4_096, 0), Some(Step::ReadCut(longest.clone())));
        assert_eq!(step(12, 4_096, 0), Some(Step::ReadImage(longest)));
    }

    /// The images by hand of `image.rs`.
    #[test]
    fn both_forms_are_printed() {
        let write = |room: usize, byte: u8| Step::WriteImage { room, byte };
        let steps = [
            write(0, 0xee),
            write(1, 0xee),
            Step::Call(Call::Open(5, 6)),
            write(5, 0xee),
            write(8, 0x0f),
            Step::ReadImage(vec![0x01, 0x00]),
            Step::ReadImage(vec![0x01]),
            Step::ReadImage(vec![0x00]),
            Step::ReadImage(vec![0x02, 0x28, 0x80, 0x20, 0x00, 0x80]),
            Step::Call(Call::Show(5)),
            Step::ReadCut(vec![0x02, 0x28, 0x80]),
            Step::Call(Call::Show(5)),
            Step::ReadCut(vec![0x00, 0x01, 0x82]),
            Step::Call(Call::Show(5)),
        ];
        let rows = [" 4 1".to_string(), " 0 0".repeat(10)].concat();
        let shown = format!("show 5 0 4 1{rows}\n");
        let expected = [
            "write-image 0 8 - -\nlent 0 8 - -\n",
            "write-image 1 0 1 00\nlent 1 0 1 00\nopen 5 6 0 0\n",
            "write-image 5 8 - eeeeeeeeee\nlent 5 8 - eeeeeeeeee\n",
            "write-image 8 0 6 0228803000000f0f\nlent 8 0 6 0228803000000f0f\n",
            "read-image 2 13\nlent 2 13 equal\nread-image 1 14\nlent 1 14 equal\n",
            "read-image 1 0\nlent 1 0 equal\nread-image 6 0\nlent 6 0 equal\n",
            &shown,
            // each ends inside a field, so that line 5 stays
            "read-image 0 13\nlent 0 13 equal\nread-image 1 13\nlent 1 13 equal\n",
            "read-image 2 13\nlent 2 13 equal\n",
            &shown,
            // the first byte alone is the empty plan's image, which is taken
            "read-image 0 13\nlent 0 13 equal\nread-image 1 0\nlent 1 0 equal\n",
            "read-image 2 13\nlent 2 13 equal\nshow 5 4\n",
        ];
        assert_eq!(printed(&steps), expected.concat());
    }

    /// How many reads have each number and way, and how many of each number are put to a record
    /// that is no tree.
    type Counts = BTreeMap<(u8, &'static str), usize>;

    /// The reads of all steps, one by one. They leave what their step leaves.
    fn reads(steps: &[Step]) -> Counts {
        let mut held = Held::empty();
        let mut counts = BTreeMap::new();
        for step in steps {
            let mut read = held.clone();
            for bytes in step.reads() {
                read_in_both_ways(&mut read, bytes, &mut counts);
            }
            change(&mut held, step);
            let is_call = matches!(step, Step::Call(_));
            assert!(is_call || held.record == read.record && held.plan == read.plan);
        }
        counts
    }

    /// The answer, told in the second way too, and what it leaves: after a read that is refused the
    /// record has the numbers that it had.
    fn read_in_both_ways(held: &mut Held, bytes: &[u8], counts: &mut Counts) {
        let before = held.clone();
        let answer = held.read_image(bytes);
        let number = answer.map_or_else(Refusal::number, |()| 0);
        let reading = reading(bytes);
        assert_eq!(number, reading.number(), "{bytes:x?}");
        if let Reading::Taken(paths) = &reading {
            assert_eq!(held.plan, plan_of(paths));
            assert_eq!(held.record.tree().as_ref(), Some(&held.plan));
        } else {
            assert!(held.record == before.record && held.plan == before.plan);
        }
        *counts.entry((number, reading.way())).or_insert(0) += 1;
        if before.record.tree().is_none() {
            *counts.entry((number, "no tree")).or_insert(0) += 1;
        }
    }

    /// The generated part of the script that `.ci/run` composes.
    fn stored() -> Vec<Step> {
        let seeds = [1, 2].into_iter();
        let scripts = seeds.map(|seed| Shape::ALL.map(|shape| generated(seed, 4, shape)));
        scripts.flatten().flatten().collect()
    }

    #[test]
    fn reads_have_every_outcome_often() {
        for (steps, least) in [(cases(), 5), (stored(), 70)] {
            let counts = reads(&steps);
            // six ways, and records that are no tree before each of 0, 13 and 14
            assert_eq!(counts.len(), 9, "{counts:?}");
            assert!(counts.values().all(|&count| count >= least), "{counts:?}");
        }
    }

    #[test]
    fn generated_scripts_bring_every_answer() {
        for shape in Shape::ALL {
            let steps = generated(1, 6, shape);
            let text = printed(&steps);
            let mut results: Vec<(&str, &str)> = text.lines().filter_map(word_and_result).collect();
            results.sort_unstable();
            results.dedup();
            let expected = [
                ("read-image", "0"),
                ("read-image", "13"),
                ("read-image", "14"),
                ("write-image", "0"),
                ("write-image", "8"),
            ];
            assert_eq!(results, expected, "{shape:?}");
            assert!(generated(1, 8, shape).starts_with(&steps));
            assert_ne!(generated(2, 6, shape), steps);
        }
    }

    /// Of the two calls on a plan by value.
    fn word_and_result(line: &str) -> Option<(&str, &str)> {
        let words: Vec<&str> = line.split(' ').collect();
        words[0].ends_with("-image").then(|| (words[0], words[2]))
    }
}
