//! `second image-script cases`: images written into buffers of every length, and bytes read that
//! are no image in each way, each way before all that come after it, images of legal trees, reads
//! on damaged records, the longest images, and bookings that go on from a plan that was read, as a
//! script (`image_script.rs`).

use crate::ask::{paths, Path, Row, ROWS};
use crate::drawn_images::turn_bit;
use crate::image::{
    fields, image, pack, Field, COUNT_BITS, EDGE_BITS, LENGTH_BITS, LINE_BITS, MOST_IMAGE_BYTES,
    WEIGHT_BITS,
};
use crate::image_script::{change, Step, MOST_BYTES};
use crate::record::Held;
use crate::script::{self, opened_in_turn, Step as Call};
use crate::tree::{Plan, LAST_LINE};

/// The whole script.
pub fn cases() -> Vec<Step> {
    [
        rooms(),
        named_cases(),
        refused(fields_cut_off()),
        refused(fields_out_of_range()),
        refused(bytes_behind()),
        refused(fill_bits_that_are_1()),
        refused(illegal_trees()),
        legal_trees(),
        damaged_records(),
        longest_images(),
    ]
    .concat()
}

/// A plan with these lines open (`opened_in_turn`).
fn opened(periods: &[u64]) -> (Vec<Step>, Held) {
    let (calls, held) = opened_in_turn(periods);
    (calls.into_iter().map(Step::Call).collect(), held)
}

fn shows(lines: impl IntoIterator<Item = u8>) -> impl Iterator<Item = Step> {
    let lines = lines.into_iter();
    lines.map(|line| Step::Call(Call::Show(line.into())))
}

/// Into a buffer that is as long as the image.
fn write_whole(plan: &Plan) -> Step {
    let (room, byte) = (image(plan).len(), 0xee);
    Step::WriteImage { room, byte }
}

/// Buffers without a byte, with one, one byte too short, exact, longer, and as long as they can be,
/// on plans with no line, with one and with four.
fn rooms() -> Vec<Step> {
    let mut steps = Vec::new();
    for periods in [&[][..], &[1], &[4, 6, 8, 2, 12]] {
        let (begins, held) = opened(periods);
        let length = image(&held.plan).len();
        steps.extend(begins);
        for room in [0, 1, length - 1, length, length + 1, length + 9] {
            steps.extend([0x00, 0x5a, 0xff].map(|byte| Step::WriteImage { room, byte }));
        }
        let (room, byte) = (MOST_BYTES, 0xee);
        steps.push(Step::WriteImage { room, byte });
    }
    steps
}

/// (Marked cases, A to I) and `earliest_start`: the image after each call; at the end it is read
/// where another plan stands.
fn named_cases() -> Vec<Step> {
    let mut steps = Vec::new();
    for case in script::named_cases() {
        let mut held = Held::empty();
        steps.push(Step::Call(Call::Begin));
        for call in case {
            script::change(&mut held, call);
            steps.extend([Step::Call(call), write_whole(&held.plan)]);
        }
        steps.extend(opened(&[7, 7]).0);
        steps.push(Step::ReadImage(image(&held.plan)));
        steps.extend(whole(&held.plan));
    }
    steps
}

/// What a plan is: its image, and every line of it and line 0.
fn whole(plan: &Plan) -> Vec<Step> {
    let lines = paths(plan).into_iter().map(|path| path.line);
    let mut steps = vec![write_whole(plan)];
    steps.extend(shows(lines.chain([0])));
    steps
}

/// Reads that are refused, on the empty plan and on one with lines, which stay as they are.
fn refused(images: Vec<Vec<u8>>) -> Vec<Step> {
    let mut steps = Vec::new();
    for periods in [&[][..], &[2, 6, 12]] {
        let (begins, held) = opened(periods);
        steps.extend(begins);
        steps.extend(images.iter().cloned().map(Step::ReadImage));
        steps.extend(whole(&held.plan));
    }
    steps
}

/// `LINE: WEIGHT/EDGE WEIGHT/EDGE ..` from the root on, parted by `, `, in the image's sequence.
pub(crate) fn paths_of(lines: &str) -> Vec<Path> {
    let number = |text: &str| text.parse().expect("a number stands here");
    let row = |text: &str| {
        let (weight, edge) = text.split_once('/').expect("a row has two numbers");
        let [weight, edge] = [weight, edge].map(number);
        Row { weight, edge }
    };
    let path = |text: &str| {
        let (line, rows) = text.split_once(": ").expect("a line has rows");
        let rows = rows.split(' ').map(row).collect();
        let line = number(line) as u8;
        Path { line, rows }
    };
    lines.split(", ").map(path).collect()
}

fn image_of(lines: &str) -> Vec<u8> {
    pack(&fields(&paths_of(lines)))
}

/// The last bit is 1, which in an image is a fill bit: its fields never make whole bytes.
fn with_last_bit(mut bytes: Vec<u8>) -> Vec<u8> {
    *bytes.last_mut().expect("there is a byte") |= 1;
    bytes
}

/// Each line's fields begin at another bit of a byte.
const FIVE_LINES: &str = "0: 3/0 2/1, 1: 3/1, 17: 3/2 5/4 7/6, 62: 3/0 2/0, 63: 3/2 5/0";

/// Cut short at each byte (Ask 9, 7). That a field is cut off comes before its range, and before
/// all that is wrong with the tree of the fields before it.
fn fields_cut_off() -> Vec<Vec<u8>> {
    let five = image_of(FIVE_LINES);
    let lengths = 0..five.len();
    let mut images: Vec<Vec<u8>> = lengths.map(|length| five[..length].to_vec()).collect();
    images.extend([0x80, 0x81, 0x02, 0x03, 0x7e].map(|byte| vec![byte]));
    images.extend([
        // three bits of a length that is out of range
        vec![0x02, 0x07],
        // seven bits of a weight of 0
        vec![0x02, 0x00, 0x80],
        // three bits of an edge
        vec![0x02, 0x00, 0x80, 0x08],
    ]);
    for mut image in illegal_trees() {
        image.pop();
        images.push(image);
    }
    images
}

/// The fields up to one that is out of range, alone, so that what comes after it is cut off, and
/// with what is looked at later (Ask 9, 7 and 8): a last bit that is 1, and further bytes.
fn fields_out_of_range() -> Vec<Vec<u8>> {
    let mut images = Vec::new();
    for fields in [counts(), lengths(), weights_of_0()].concat() {
        let image = pack(&fields);
        images.extend([0x00, 0xff].map(|byte| [image.as_slice(), &[byte; 40]].concat()));
        images.extend([image.clone(), with_last_bit(image)]);
    }
    images
}

/// Above 64.
fn counts() -> Vec<Vec<Field>> {
    let count = |count: u16| vec![(count, COUNT_BITS)];
    [65, 66, 96, 126, 127].map(count).to_vec()
}

/// 0 and above 11.
fn lengths() -> Vec<Vec<Field>> {
    let before = [(1, COUNT_BITS), (63, LINE_BITS)];
    let length = |length: u16| [before.as_slice(), &[(length, LENGTH_BITS)]].concat();
    [0, 12, 13, 14, 15].map(length).to_vec()
}

/// The first one, the eleventh, and one after lines that no legal tree has.
fn weights_of_0() -> Vec<Vec<Field>> {
    let of_line = |line: u16, length: u16| vec![(line, LINE_BITS), (length, LENGTH_BITS)];
    let row = vec![(2, WEIGHT_BITS), (2, EDGE_BITS)];
    let (first, eleventh) = (of_line(9, 2), [of_line(9, 11), row.repeat(10)].concat());
    let third = [
        of_line(9, 1),
        row.clone(),
        of_line(9, 1),
        row,
        of_line(8, 3),
    ]
    .concat();
    let whole = |of_lines: Vec<Field>| {
        let (count, weight) = (vec![(3, COUNT_BITS)], vec![(0, WEIGHT_BITS)]);
        [count, of_lines, weight].concat()
    };
    [first, eleventh, third].map(whole).to_vec()
}

/// One byte and many behind the byte in which the last field ends: before a fill bit that is 1, and
/// before an illegal tree (Ask 9, 7).
fn bytes_behind() -> Vec<Vec<u8>> {
    let empty = image(&Plan::empty());
    let mut images = vec![[0x00; MOST_BYTES].to_vec()];
    let illegal = [ILLEGAL_TREES[0], ILLEGAL_TREES[5]].map(image_of);
    for image in [[empty, image_of(FIVE_LINES)], illegal].concat() {
        for byte in [0x00, 0x01, 0x80, 0xff] {
            images.push([image.as_slice(), &[byte]].concat());
            images.push([with_last_bit(image.clone()), vec![byte]].concat());
        }
        images.push([image.as_slice(), &image].concat());
    }
    images
}

/// Each fill bit alone and all of them, where there are 1, 7, 5, 3 and 1, and in an illegal tree.
fn fill_bits_that_are_1() -> Vec<Vec<u8>> {
    let five = paths_of(FIVE_LINES);
    let legal = (0..5).map(|count| pack(&fields(&five[..count])));
    let illegal = image_of(ILLEGAL_TREES[0]);
    let fill_bits = [1, 7, 5, 3, 1, 7];
    let mut images = Vec::new();
    for (image, fill_bits) in legal.chain([illegal]).zip(fill_bits) {
        let end = 8 * image.len();
        let mut all = image.clone();
        for bit in end - fill_bits..end {
            let mut one = image.clone();
            turn_bit(&mut one, bit);
            turn_bit(&mut all, bit);
            images.push(one);
        }
        images.push(all);
    }
    images
}

/// (Ask 9, 3), and line numbers that do not rise (Ask 9, 8).
pub(crate) const ILLEGAL_TREES: &[&str] = &[
    // an edge as large as its weight, or larger
    "5: 6/6",
    "5: 6/7",
    "5: 2/4095",
    "5: 4095/4095",
    "5: 2/2 3/0",
    "5: 2/1 3/3",
    "5: 2/0, 6: 2/1 3/1 2/2",
    // a period above 4,095, in the last five one that is in range in 16, 32 or 64 bits, or 0
    "5: 2/0 2048/0",
    "5: 64/63 64/63",
    "5: 4095/0 2/0",
    "5: 4095/4094 4095/4094 4095/4094 4095/4094",
    "5: 2/0, 6: 2/1 2/0 2/0 2/0 2/0 2/0 2/0 2/0 2/0 2/0 4/0",
    "5: 3121/1 21/1",
    "5: 2642/2 2501/2 650/2",
    "5: 2939/0 2942/0 3412/0 3427/0 2479/0 368/0",
    "5: 64/0 1024/0",
    "5: 64/0 64/0 64/0 64/0 64/0 64/0 64/0 64/0 64/0 64/0 16/0",
    // a weight of 1 in a longer path, or with an edge of 1
    "5: 1/0 1/0",
    "5: 1/0 6/0",
    "5: 6/0 1/0",
    "5: 2/0 1/0 3/0",
    "5: 2/0, 6: 2/1 1/0",
    "5: 1/1",
    // two lines under a root of weight 1
    "5: 1/0, 6: 1/0",
    "5: 1/0, 6: 1/0 2/0",
    "5: 1/0, 6: 2/1",
    "5: 2/1, 6: 1/0",
    // a node with two weights
    "5: 2/0, 6: 3/1",
    "5: 2/0, 6: 4/1",
    "5: 2/0 2/0, 6: 2/0 3/1",
    "5: 2/0 2/0, 6: 2/1, 7: 2/0 4/1",
    "5: 2/0 3/2 2/0, 6: 2/0 3/2 5/1",
    "5: 2/0 2/1, 6: 3/0 2/0",
    "5: 2/0 3/1, 6: 2/0 2/0 3/1",
    // a line on the way to another, told after it or before it, or at its place
    "5: 2/0 2/0, 6: 2/0",
    "5: 2/0, 6: 2/0 2/0",
    "5: 2/1 3/2, 6: 2/0, 7: 2/1 3/2 4/3 5/4",
    "5: 2/0, 6: 2/0",
    "5: 2/1 3/2, 6: 2/0, 7: 2/1 3/2",
    "0: 4095/4094, 63: 4095/4094",
    // line numbers that fall, or are equal
    "6: 2/0, 5: 2/1",
    "63: 2/0, 0: 2/1",
    "5: 3/0, 7: 3/1, 6: 3/2",
    "5: 2/0, 5: 2/1",
    "0: 2/0, 0: 2/0",
    "5: 3/0, 7: 3/1, 5: 3/2",
];

fn illegal_trees() -> Vec<Vec<u8>> {
    ILLEGAL_TREES.iter().copied().map(image_of).collect()
}

/// Trees that opens make, and others: nodes with one edge, nodes that could be joined, and lines in
/// any sequence of their starts.
const LEGAL_TREES: &[&str] = &[
    "0: 1/0",
    "63: 1/0",
    "31: 2/1",
    "9: 4095/4094",
    "9: 3/2 1365/1364",
    "5: 2/1 3/2 2/0",
    "5: 2/1 2/1 2/1 2/1 2/1 2/1 2/1 2/1 2/1 2/1 2/1",
    "5: 2/1 2/0 2/1 2/0 2/1 2/0 2/1 2/0 2/1 2/0 3/2, 6: 2/0",
    "5: 2/0 2/0, 6: 2/1 2/0",
    "5: 2/0 2/0, 6: 2/1 3/1",
    "5: 2/1 3/1, 6: 2/0 3/1",
    "5: 4/3, 6: 4/2, 7: 4/1, 8: 4/0",
    "5: 3/0 2/0 2/0, 6: 3/0 2/0 2/1, 7: 3/1 2/1, 8: 3/2 2/0",
    "1: 2/0 2/0 2/0, 2: 2/0 2/0 2/1, 3: 2/0 2/1 2/0, 4: 2/1 2/0",
    FIVE_LINES,
];

/// Each is read where the one before it has left lines, and bookings go on from it: opens that are
/// booked or refused, and closes.
fn legal_trees() -> Vec<Step> {
    let (mut steps, mut held) = opened(&[2, 6, 12]);
    for lines in LEGAL_TREES {
        let first = paths_of(lines)[0].line;
        let read = Step::ReadImage(image_of(lines));
        change(&mut held, &read);
        steps.push(read);
        steps.extend(whole(&held.plan));
        steps.extend((0..12).map(|round| Step::Call(Call::Owner(round))));
        let periods = [4, 6, 12, 5, 2_048].into_iter();
        let opens = (40..)
            .zip(periods)
            .map(|(line, period)| Call::Open(line, period));
        let closes = [first.into(), 40, 41].map(Call::Close);
        for call in opens.chain(closes) {
            let call = Step::Call(call);
            change(&mut held, &call);
            steps.push(call);
        }
        steps.extend(whole(&held.plan));
    }
    steps
}

/// Records that are no tree are written as the empty plan's image. A read that is refused leaves
/// the numbers as found: when the one that was written over is written back, the plan is there
/// again. An image that is taken leaves none of them.
fn damaged_records() -> Vec<Step> {
    let mut steps = Vec::new();
    for (place, number) in [
        (0, 4_096),
        (22, 0),
        (23, 4),
        (45, 7),
        (1_407, 1),
        (1_406, 65_535),
    ] {
        let (begins, held) = opened(&[4, 6]);
        let found = held.record.number(place as usize);
        let damage = Step::Call(Call::Write(place, number));
        steps.extend(begins);
        steps.push(damage.clone());
        steps.extend((0..4).map(|room| Step::WriteImage { room, byte: 0xee }));
        let no_images = [&[][..], &[0x02], &[0x82], &[0x00, 0x00], &[0x01]];
        steps.extend(no_images.map(|bytes| Step::ReadImage(bytes.to_vec())));
        steps.push(Step::ReadImage(image_of(ILLEGAL_TREES[0])));
        steps.push(Step::Call(Call::Write(place, found)));
        steps.extend(whole(&held.plan));
        steps.push(damage);
        steps.push(Step::ReadImage(image_of("1: 6/5, 2: 6/0")));
        steps.extend(shows(0..4));
        steps.push(Step::Call(Call::Open(63, 3)));
        steps.extend(shows([1, 2, 63]));
    }
    steps
}

/// All 64 lines, each under eleven nodes of weight 2, or the last of them of another weight: the
/// edges are the bits of the line's number, the least first, over and over. No image is longer.
fn longest(last_weight: u16) -> Vec<Path> {
    let bit = |line: u8, level: usize| u16::from(line >> (level % 6) & 1);
    let path = |line: u8| {
        let edges = (0..ROWS).map(|level| bit(line, level));
        let mut rows: Vec<Row> = edges.map(|edge| Row { weight: 2, edge }).collect();
        rows[ROWS - 1].weight = last_weight;
        Path { line, rows }
    };
    (0..=LAST_LINE as u8).map(path).collect()
}

/// Images of the longest length are read and written; cut short at each byte, and with one thing
/// changed, they are refused. Bookings go on.
fn longest_images() -> Vec<Step> {
    let mut steps = Vec::new();
    for last_weight in [2, 3] {
        let paths = longest(last_weight);
        let image = pack(&fields(&paths));
        steps.extend([Step::Call(Call::Begin), Step::ReadImage(image.clone())]);
        for room in [MOST_IMAGE_BYTES - 1, MOST_IMAGE_BYTES, MOST_BYTES] {
            steps.push(Step::WriteImage { room, byte: 0x5a });
        }
        steps.push(Step::ReadCut(image.clone()));
        let longer = [image.as_slice(), &[0x00]].concat();
        let one_more = pack(&[&[(65, COUNT_BITS)], &fields(&paths)[1..]].concat());
        let one_less = pack(&[&[(63, COUNT_BITS)], &fields(&paths)[1..]].concat());
        let falling = pack(&fields(&[&paths[1..], &paths[..1]].concat()));
        let others = [longer, with_last_bit(image), one_more, one_less, falling];
        steps.extend(others.map(Step::ReadImage));
        steps.extend(shows([0, 1, 31, 62, 63]));
        let calls = [
            Call::Open(5, 2_048),
            Call::Close(63),
            Call::Open(63, 3_072),
            Call::Close(62),
            Call::Open(62, 2_048),
        ];
        steps.extend(calls.map(Step::Call));
        steps.extend(shows([0, 1, 31, 62, 63]));
        let (room, byte) = (MOST_IMAGE_BYTES, 0x5a);
        steps.push(Step::WriteImage { room, byte });
    }
    steps
}

#[cfg(test)]
mod tests {
    use super::*;
    use crate::image_script::tests::printed;
    use crate::naive_image::reading;
    use crate::tree::LAST_PERIOD;

    #[test]
    fn every_way_is_that_of_its_images() {
        for (images, way, least) in [
            (fields_cut_off(), "field cut off", 70),
            (fields_out_of_range(), "out of range", 52),
            (bytes_behind(), "bytes behind", 37),
            (fill_bits_that_are_1(), "fill bit 1", 30),
            (illegal_trees(), "illegal tree", 45),
        ] {
            assert!(images.len() >= least, "{way} {}", images.len());
            for image in images {
                assert_eq!(reading(&image).way(), way, "{image:x?}");
            }
        }
        for lines in LEGAL_TREES {
            assert_eq!(reading(&image_of(lines)).way(), "taken", "{lines}");
        }
    }

    /// The last five of them.
    #[test]
    fn periods_are_in_range_when_they_are_cut() {
        let cut = [(16, 5), (32, 4), (64, 384), (16, 0), (64, 0)];
        for (lines, (bits, period)) in ILLEGAL_TREES[12..17].iter().zip(cut) {
            let rows = paths_of(lines)[0].rows.clone();
            let product: u128 = rows.iter().map(|row| u128::from(row.weight)).product();
            assert!(product > LAST_PERIOD.into());
            assert_eq!(product % (1 << bits), period, "{lines}");
        }
    }

    /// What becomes of each read, in sequence.
    fn results(text: &str) -> Vec<u8> {
        let reads = text.lines().filter(|line| line.starts_with("read-image"));
        let result = |line: &str| line.rsplit(' ').next().map(|word| word.parse().unwrap());
        reads.filter_map(result).collect()
    }

    /// A line's first words, and the rows that are not used.
    fn shown(words: &str) -> String {
        let numbers = words.split(' ').skip(4).count();
        let unused = " 0".repeat(2 * ROWS - numbers);
        format!("show {words}{unused}\n")
    }

    /// 2@0, 6@1 and 12@3 of the lines 1 to 3; line 0 is not open.
    #[test]
    fn refused_reads_leave_the_plan() {
        let text = printed(&refused(fill_bits_that_are_1()));
        assert!(results(&text).iter().all(|&result| result == 14));
        let lines = ["1 0 2 0 2 0", "2 0 6 1 2 1 3 0", "3 0 12 3 2 1 3 1 2 0"].map(shown);
        let expected = format!("{}show 0 4\n", lines.concat());
        assert!(text.ends_with(&expected), "{text}");
    }

    #[test]
    fn buffers_of_every_length() {
        let text = printed(&rooms());
        for line in [
            "write-image 0 8 - -",
            "write-image 1 0 1 00",
            "write-image 2 0 1 00ff",
            // line 1 of period 1: 0000001, 000001 0001, 000000000001 000000000000
            "write-image 5 8 - 5a5a5a5a5a",
            "write-image 6 0 6 020880080000",
            "write-image 15 0 6 0208800800005a5a5a5a5a5a5a5a5a",
        ] {
            let lines = text.lines().filter(|&printed| printed == line);
            assert!(lines.count() > 0, "{line}");
        }
        let of_4_lines = text
            .lines()
            .filter(|line| line.starts_with("write-image 35 8 - "));
        assert_eq!(of_4_lines.count(), 3, "{text}");
    }

    /// Written back, the number gives the lines 1 and 2 again.
    #[test]
    fn numbers_of_damaged_records_stay() {
        let text = printed(&damaged_records());
        let parts: Vec<&str> = text.split("plan\n").skip(1).collect();
        assert_eq!(parts.len(), 6);
        for part in parts {
            assert_eq!(results(part), [13, 13, 14, 13, 14, 14, 0], "{part}");
            let whole = "open 1 4 0 0\nopen 2 6 0 1\n";
            assert!(part.starts_with(whole), "{part}");
            let empty = "write-image 0 8 - -\nlent 0 8 - -\nwrite-image 1 0 1 00\n";
            assert!(part.contains(empty), "{part}");
            let written_back = ["1 0 4 0 2 0 2 0", "2 0 6 1 2 1 3 0"].map(shown);
            assert!(part.contains(&written_back.concat()), "{part}");
            let taken = "open 63 3 0 1\nshow 1 0 6 5 3 2 2 1 0 0";
            assert!(part.contains(taken), "{part}");
        }
    }

    #[test]
    fn images_of_the_longest_length() {
        let text = printed(&longest_images());
        let cut = [13; MOST_IMAGE_BYTES];
        let one = [&[0][..], &cut, &[13, 14, 14, 13, 14]].concat();
        assert_eq!(results(&text), one.repeat(2));
        let written = "\nwrite-image 2192 8 - 5a5a";
        assert_eq!(text.matches(written).count(), 2);
        assert_eq!(text.matches("\nwrite-image 4096 0 2193 80").count(), 2);
    }
}
