//! Scripts of list calls, and what each call answers: the input and the expected output
//! of the test program that runs order lists on one plan after another.
//!
//! A script is a sequence of steps. A step is a kind, then four numbers of 64 bits, most
//! significant byte first, those that are not named here 0: 33 bytes, as in `script.rs`.
//! Kinds: 0 begins again with the empty plan, 1 writes a number into the record (place,
//! number), 2 asks for a number of the record (place), 3 asks for an owner (round), 4 gives
//! bytes (count), 5 runs a list (length, room). The bytes that are given, 1 to 100,000,
//! follow their step.
//!
//! A list is the bytes given last, over and over up to its length, so that a long one
//! takes little of the script; its length is at most 100,000. The room, at most 70,000,
//! is how many bytes are lent for the answers. Each lent byte is EE before the call.
//! The plan that a list leaves is the plan of the next step.
//!
//! What is printed, words parted by one space:
//! `plan`; `write PLACE NUMBER`; `number PLACE NUMBER`; `owner ROUND LINE`, or
//! `owner ROUND idle REST`; nothing for bytes that are given.
//! A list prints `list LENGTH ROOM RESULT`; if it was not refused, the two answer bytes of
//! each order in hexadecimal, 16 orders to a line; then `beyond COUNT BYTES`, where COUNT
//! says how many of the lent bytes after the answers (of a refused list: of all) are EE,
//! and BYTES are the first of them, at most 6, in hexadecimal.
//!
//! A number that is written may leave the record a tree, the same or another, or make it
//! none, which counts as the empty plan: `record.rs` says which. It stays in the record
//! until an order is carried out, since a refused one leaves the plan as it was.

use crate::ask::owner;
use crate::head::{self, HEAD_BYTES};
use crate::lists;
use crate::orders::{answers_length, ANSWER_BYTES};
use crate::random::Random;
use crate::record::{drawn_write, Held};
use crate::refusal::Refusal;
use crate::script::owned;
use crate::shapes::Shape;
use std::io::{self, Write};

/// The longest list that a script can run, and the most bytes that it can give.
const LIST_BYTES: usize = 100_000;
/// The most bytes that are lent.
pub(crate) const MOST_ROOM: usize = 70_000;
/// Each lent byte before the call.
const UNTOUCHED: u8 = 0xee;
const ANSWERS_IN_A_LINE: usize = 16;
const BYTES_SHOWN_BEYOND: usize = 6;

#[derive(Clone, Debug, PartialEq, Eq)]
pub enum Step {
    Begin,
    Write { place: u64, number: u16 },
    Number { place: u64 },
    Owner { round: u64 },
    Give(Vec<u8>),
    List { length: usize, room: usize },
}

impl Step {
    fn write(&self, out: &mut impl Write) -> io::Result<()> {
        let (kind, first, second) = match *self {
            Step::Begin => (0, 0, 0),
            Step::Write { place, number } => (1, place, number.into()),
            Step::Number { place } => (2, place, 0),
            Step::Owner { round } => (3, round, 0),
            Step::Give(ref bytes) => (4, bytes.len() as u64, 0),
            Step::List { length, room } => (5, length as u64, room as u64),
        };
        out.write_all(&head::write(kind, [first, second, 0, 0]))?;
        match self {
            Step::Give(bytes) => out.write_all(bytes),
            _ => Ok(()),
        }
    }

    /// The first step of a script, and the script after it.
    fn read(script: &[u8]) -> Option<(Step, &[u8])> {
        let (head, rest) = script.split_first_chunk::<HEAD_BYTES>()?;
        let (kind, [first, second, ..]) = head::read(head);
        let step = match kind {
            0 => Step::Begin,
            1 => Step::Write {
                place: first,
                number: u16::try_from(second).ok()?,
            },
            2 => Step::Number { place: first },
            3 => Step::Owner { round: first },
            4 => {
                let count = limited(first, LIST_BYTES).filter(|&count| count > 0)?;
                let (bytes, rest) = rest.split_at_checked(count)?;
                return Some((Step::Give(bytes.to_vec()), rest));
            }
            5 => Step::List {
                length: limited(first, LIST_BYTES)?,
                room: limited(second, MOST_ROOM)?,
            },
            _ => return None,
        };
        Some((step, rest))
    }
}

fn limited(number: u64, most: usize) -> Option<usize> {
    usize::try_from(number).ok().filter(|&it| it <= most)
}

/// Writes the steps as a script.
pub fn write(steps: &[Step], out: &mut impl Write) -> io::Result<()> {
    steps.iter().try_for_each(|step| step.write(out))
}

/// Carries a script out. A step of an unknown kind, or one that is cut off, ends it.
pub fn print_answers(script: &[u8], out: &mut impl Write) -> io::Result<()> {
    let mut held = Held::empty();
    let mut given = vec![0];
    let mut rest = script;
    while let Some((step, after)) = Step::read(rest) {
        match step {
            Step::Give(bytes) => given = bytes,
            step => print_step(&mut held, step, &given, out)?,
        }
        rest = after;
    }
    Ok(())
}

fn print_step(held: &mut Held, step: Step, given: &[u8], out: &mut impl Write) -> io::Result<()> {
    match step {
        Step::Begin => {
            *held = Held::empty();
            writeln!(out, "plan")
        }
        Step::Write { place, number } => {
            held.write(place, number);
            writeln!(out, "write {place} {number}")
        }
        Step::Number { place } => {
            let number = held.record.number(place as usize);
            writeln!(out, "number {place} {number}")
        }
        Step::Owner { round } => {
            writeln!(out, "owner {round} {}", owned(owner(&held.plan, round)))
        }
        Step::Give(_) => Ok(()),
        Step::List { length, room } => {
            let list: Vec<u8> = given.iter().copied().cycle().take(length).collect();
            print_list(held, &list, room, out)
        }
    }
}

fn print_list(held: &mut Held, list: &[u8], room: usize, out: &mut impl Write) -> io::Result<()> {
    let mut lent = vec![UNTOUCHED; room];
    let result = held.run(list, &mut lent);
    let answered = match result {
        Ok(()) => answers_length(list.len()),
        Err(_) => 0,
    };
    let (answers, beyond) = lent.split_at(answered);
    let number = result.map_or_else(Refusal::number, |()| 0);
    writeln!(out, "list {} {room} {number}", list.len())?;
    for line in answers.chunks(ANSWERS_IN_A_LINE * ANSWER_BYTES) {
        let words: Vec<String> = line.chunks(ANSWER_BYTES).map(hexadecimal).collect();
        writeln!(out, "{}", words.join(" "))?;
    }
    print_beyond(beyond, out)
}

pub(crate) fn hexadecimal(bytes: &[u8]) -> String {
    bytes.iter().map(|byte| format!("{byte:02x}")).collect()
}

fn print_beyond(beyond: &[u8], out: &mut impl Write) -> io::Result<()> {
    let untouched = beyond.iter().filter(|&&byte| byte == UNTOUCHED).count();
    write!(out, "beyond {untouched}")?;
    for byte in beyond.iter().take(BYTES_SHOWN_BEYOND) {
        write!(out, " {byte:02x}")?;
    }
    writeln!(out)
}

/// Generated lists (`lists`), each on the plan that the one before it left, every fourth
/// on an empty plan, and every third after a number of the record was written over. Every
/// third is run too short and with too little room first. After each list a number of the
/// record and the plan's owners are asked.
pub fn generated(seed: u64, count: u64, shape: Shape) -> Vec<Step> {
    let mut random = Random::new(seed);
    let mut held = Held::empty();
    let mut steps = vec![Step::Begin];
    for _ in 0..count {
        if random.below(4) == 0 {
            held = Held::empty();
            steps.push(Step::Begin);
        }
        let (place, number) = drawn_write(&held.record, &mut random);
        if random.below(3) == 0 {
            held.write(place, number);
            steps.push(Step::Write { place, number });
        }
        let list = lists::generate(shape, &mut random);
        steps.extend(attempts(&list, &mut random));
        held.run(&list, &mut vec![0; list.len()])
            .expect("the list is short and whole");
        steps.push(Step::Number { place });
        steps.extend(owners(lists::rounds(&held.plan, &mut random)));
    }
    steps
}

/// The list, perhaps after attempts that are refused.
fn attempts(list: &[u8], random: &mut Random) -> Vec<Step> {
    let length = list.len();
    let answers = answers_length(length);
    let room = answers + random.pick(&[0, 0, 1, 2, 5, 200]);
    let mut steps = Vec::new();
    if length > 0 {
        steps.push(Step::Give(list.to_vec()));
    }
    if length > 0 && random.below(3) == 0 {
        let cut = length - 1 - random.below(2) as usize;
        steps.push(Step::List { length: cut, room });
        let room = random.below(answers as u64) as usize;
        steps.push(Step::List { length, room });
    }
    steps.push(Step::List { length, room });
    steps
}

pub(crate) fn owners(rounds: impl IntoIterator<Item = u64>) -> impl Iterator<Item = Step> {
    rounds.into_iter().map(|round| Step::Owner { round })
}

#[cfg(test)]
mod tests {
    use super::*;
    use crate::head::scripts::{read_back, written};
    use crate::list_cases::cases;
    use crate::orders::pack;

    fn script(steps: &[Step]) -> Vec<u8> {
        written(|script| write(steps, script))
    }

    fn printed(steps: &[Step]) -> String {
        String::from_utf8(written(|text| print_answers(&script(steps), text))).unwrap()
    }

    #[test]
    fn steps_are_read_back_from_their_bytes() {
        for steps in [cases(), generated(1, 40, Shape::Sparse)] {
            assert_eq!(read_back(&script(&steps), Step::read), steps);
        }
        let whole = script(&[Step::Begin, Step::Give(vec![1, 2, 3])]);
        for length in HEAD_BYTES..whole.len() {
            assert_eq!(read_back(&whole[..length], Step::read), [Step::Begin]);
        }
    }

    #[test]
    fn steps_outside_the_limits_are_not_read() {
        let head = |kind: u8, first: u64, second: u64| {
            let head = head::write(kind, [first, second, 0, 0]);
            [head.to_vec(), vec![0; LIST_BYTES + 1]].concat()
        };
        for (kind, first, second) in [
            (4, 0, 0),
            (4, 100_001, 0),
            (5, 100_001, 0),
            (5, 0, 70_001),
            (5, 1 << 63, 0),
            (6, 0, 0),
        ] {
            assert_eq!(Step::read(&head(kind, first, second)), None);
        }
        assert!(Step::read(&head(5, 100_000, 70_000)).is_some());
        assert!(Step::read(&head(4, 100_000, 0)).is_some());
    }

    #[test]
    fn lists_are_the_given_bytes_over_and_over() {
        let give = Step::Give(pack(0, 1, 1).unwrap().to_vec());
        let (length, room) = (51, 40);
        let text = printed(&[give, Step::List { length, room }]);
        let expected = format!(
            "list 51 40 0\n0000{}\n3000\nbeyond 6 ee ee ee ee ee ee\n",
            " 3000".repeat(15)
        );
        assert_eq!(text, expected);
    }

    /// Answers 0 to 6 without 1, lists refused with 7 and 8, and damage that stays and goes.
    #[test]
    fn generated_scripts_bring_every_answer() {
        for shape in Shape::ALL {
            let steps = generated(2, 60, shape);
            let text = printed(&steps);
            for answer in ["2000", "3000", "4000", "5000", "6000"] {
                assert!(text.contains(answer), "{shape:?} {answer}");
            }
            let lists: Vec<&str> = text.lines().filter(|it| it.starts_with("list")).collect();
            for result in [" 0", " 7", " 8"] {
                assert!(lists.iter().any(|it| it.ends_with(result)), "{shape:?}");
            }
            let writes = steps.iter().filter(|it| matches!(it, Step::Write { .. }));
            assert!(writes.count() > 4);
            assert!(text.contains("\nowner 4294967296 "));
            let more = generated(2, 70, shape);
            assert!(more.starts_with(&steps));
        }
    }
}
