//! Document 02, Ask 9: the image of a plan, which is its paths as fields of bits, written into a
//! lent buffer and read back.

use crate::ask::{paths, Path, Row, ROWS};
use crate::record::tree_of;
use crate::refusal::Refusal;
use crate::tree::{Plan, LAST_LINE};
use std::ops::RangeInclusive;

/// The longest image: 64 lines, each under 11 nodes.
pub const MOST_IMAGE_BYTES: usize = 2_193;

/// The widths of the fields, in bits (Ask 9, 2).
pub(crate) const COUNT_BITS: usize = 7;
pub(crate) const LINE_BITS: usize = 6;
pub(crate) const LENGTH_BITS: usize = 4;
pub(crate) const WEIGHT_BITS: usize = 12;
pub(crate) const EDGE_BITS: usize = 12;

const BYTE_BITS: usize = 8;

/// A number and its width.
pub(crate) type Field = (u16, usize);

/// Answers the length (Ask 9, 9); a buffer that is too short is left as found (Ask 9, 10).
pub fn write(plan: &Plan, buffer: &mut [u8]) -> Result<usize, Refusal> {
    let image = image(plan);
    let place = buffer.get_mut(..image.len());
    place.ok_or(Refusal::AnswerBuffer)?.copy_from_slice(&image);
    Ok(image.len())
}

/// The plan becomes that of the image's tree (Ask 9, 4), or stays as found.
pub fn read(plan: &mut Plan, bytes: &[u8]) -> Result<(), Refusal> {
    *plan = plan_of(bytes)?;
    Ok(())
}

/// The bytes of a plan's image.
pub fn image(plan: &Plan) -> Vec<u8> {
    pack(&fields(&paths(plan)))
}

/// (Ask 9, 2).
pub(crate) fn fields(paths: &[Path]) -> Vec<Field> {
    let mut fields = vec![(paths.len() as u16, COUNT_BITS)];
    for Path { line, rows } in paths {
        fields.push((u16::from(*line), LINE_BITS));
        fields.push((rows.len() as u16, LENGTH_BITS));
        let of_row = |row: &Row| [(row.weight, WEIGHT_BITS), (row.edge, EDGE_BITS)];
        fields.extend(rows.iter().flat_map(of_row));
    }
    fields
}

/// The fields one after the other, each from its highest bit on, in as many bytes as hold them;
/// the fill bits, which are left of the last byte, are 0 (Ask 9, 2).
pub(crate) fn pack(fields: &[Field]) -> Vec<u8> {
    let mut bytes = Vec::new();
    // Bits that make no whole byte yet, and how many they are.
    let (mut left, mut count) = (0u32, 0);
    for &(number, width) in fields {
        left = left << width | u32::from(number);
        count += width;
        while count >= BYTE_BITS {
            count -= BYTE_BITS;
            bytes.push((left >> count) as u8);
            left &= (1 << count) - 1;
        }
    }
    if count > 0 {
        bytes.push((left << (BYTE_BITS - count)) as u8);
    }
    bytes
}

/// Checks in sequence (Ask 9, 7).
fn plan_of(bytes: &[u8]) -> Result<Plan, Refusal> {
    let mut reader = Reader { bytes, next: 0 };
    let paths = reader.paths()?;
    reader.end()?;
    let is_rising = paths.is_sorted_by(|one, two| one.line < two.line);
    let tree = is_rising.then(|| tree_of(&paths)).flatten();
    tree.ok_or(Refusal::ImageField)
}

/// The bytes that are read, and the bit at which the next field begins.
struct Reader<'a> {
    bytes: &'a [u8],
    next: usize,
}

impl Reader<'_> {
    fn paths(&mut self) -> Result<Vec<Path>, Refusal> {
        let count = self.field(COUNT_BITS, 0..=LAST_LINE as u16 + 1)?;
        (0..count).map(|_| self.path()).collect()
    }

    fn path(&mut self) -> Result<Path, Refusal> {
        let line = self.field(LINE_BITS, 0..=LAST_LINE as u16)? as u8;
        let length = self.field(LENGTH_BITS, 1..=ROWS as u16)?;
        let rows = (0..length).map(|_| self.row()).collect::<Result<_, _>>()?;
        Ok(Path { line, rows })
    }

    /// An edge that is not below its weight is in range here (Ask 9, 8).
    fn row(&mut self) -> Result<Row, Refusal> {
        Ok(Row {
            weight: self.field(WEIGHT_BITS, 1..=u16::MAX)?,
            edge: self.field(EDGE_BITS, 0..=u16::MAX)?,
        })
    }

    /// A field that is cut off is refused before its range is looked at (Ask 9, 7).
    fn field(&mut self, width: usize, range: RangeInclusive<u16>) -> Result<u16, Refusal> {
        let end = self.next + width;
        if end > BYTE_BITS * self.bytes.len() {
            return Err(Refusal::ImageLength);
        }
        let number = self.bits(width);
        self.next = end;
        if range.contains(&number) {
            Ok(number)
        } else {
            Err(Refusal::ImageField)
        }
    }

    /// So many bits from the next one on, at most 16, so that three bytes hold them.
    fn bits(&self, width: usize) -> u16 {
        let (first, before) = (self.next / BYTE_BITS, self.next % BYTE_BITS);
        let byte = |at: usize| u32::from(self.bytes.get(first + at).copied().unwrap_or(0));
        let three = byte(0) << 16 | byte(1) << 8 | byte(2);
        (three >> (24 - before - width) & ((1 << width) - 1)) as u16
    }

    /// What stands behind the fields: a further byte, and then a fill bit that is 1 (Ask 9, 7).
    fn end(&self) -> Result<(), Refusal> {
        let used = self.next.div_ceil(BYTE_BITS);
        if self.bytes.len() > used {
            return Err(Refusal::ImageLength);
        }
        if self.bits(BYTE_BITS * used - self.next) != 0 {
            return Err(Refusal::ImageField);
        }
        Ok(())
    }
}

#[cfg(test)]
mod tests {
    use super::*;
    use crate::drawn_images::{bits_to_turn, drawn_bytes, turn_bit};
    use crate::drawn_trees::drawn_tree;
    use crate::lists::generate;
    use crate::naive_image::{image_of, reading, Reading};
    use crate::naive_joining::{paths as shown_paths, plan_of as plan_with};
    use crate::orders::run;
    use crate::random::Random;
    use crate::shapes::Shape;
    use std::collections::{BTreeMap, BTreeSet};

    /// The empty plan, plans of generated lists of every shape, and as many drawn trees.
    fn plans(seed: u64, count: usize) -> Vec<Plan> {
        let mut random = Random::new(seed);
        let mut plans = vec![Plan::empty()];
        for shape in Shape::ALL.repeat(count) {
            let list = generate(shape, &mut random);
            let mut plan = Plan::empty();
            run(&mut plan, &list, &mut vec![0; list.len()]).unwrap();
            plans.extend([plan, drawn_tree(&mut random)]);
        }
        plans
    }

    /// Reads the bytes in both ways, on a plan with a line: the same refusal, which leaves the plan
    /// as found, or the same plan, whose image these bytes are.
    fn read_in_both_ways(bytes: &[u8]) -> Reading {
        let mut found = Plan::empty();
        found.open(9, 6).unwrap();
        let mut plan = found.clone();
        let number = read(&mut plan, bytes).map_or_else(Refusal::number, |()| 0);
        let reading = reading(bytes);
        assert_eq!(number, reading.number(), "{bytes:x?} {reading:?}");
        if let Reading::Taken(paths) = &reading {
            assert_eq!(plan, plan_with(paths));
            assert_eq!(image(&plan), bytes);
        } else {
            assert_eq!(plan, found);
        }
        reading
    }

    fn opened(lines: &[(u64, u64)]) -> Plan {
        let mut plan = Plan::empty();
        for &(line, period) in lines {
            plan.open(line, period).unwrap();
        }
        plan
    }

    /// Packed by hand. Line 5 of period 6 is 0000001, 000101 0001, 000000000110 000000000000 and
    /// seven fill bits. Line 5 of period 2 and line 63 of period 6 are 0000010, 000101 0001,
    /// 000000000010 000000000000, 111111 0010, 000000000010 000000000001, 000000000011
    /// 000000000000 and five fill bits.
    #[test]
    fn images_by_hand() {
        assert_eq!(image(&Plan::empty()), [0x00]);
        let one = [0x02, 0x28, 0x80, 0x30, 0x00, 0x00];
        assert_eq!(image(&opened(&[(5, 6)])), one);
        let two = [
            0x04, 0x28, 0x80, 0x10, 0x00, 0x7e, 0x40, 0x04, 0x00, 0x20, 0x06, 0x00, 0x00,
        ];
        assert_eq!(image(&opened(&[(5, 2), (63, 6)])), two);
        let mut plan = Plan::empty();
        assert_eq!(read(&mut plan, &two), Ok(()));
        assert_eq!(plan, opened(&[(5, 2), (63, 6)]));
        assert_eq!(read(&mut plan, &[0x00]), Ok(()));
        assert_eq!(plan, Plan::empty());
    }

    #[test]
    fn images_are_read_back_and_written_again() {
        for plan in plans(91, 60) {
            let image = image(&plan);
            assert_eq!(image, image_of(&shown_paths(&plan)));
            let mut read_back = Plan::empty();
            assert_eq!(read(&mut read_back, &image), Ok(()));
            assert_eq!(read_back, plan);
            assert_eq!(super::image(&read_back), image);
            assert!(image.len() <= MOST_IMAGE_BYTES);
        }
    }

    #[test]
    fn cut_images_end_inside_a_field() {
        for plan in plans(92, 10) {
            let image = image(&plan);
            for length in 0..image.len() {
                assert_eq!(read_in_both_ways(&image[..length]), Reading::CutOff);
            }
        }
    }

    /// Each bit of an image of at most 400 bytes, and 3,200 drawn bits of a longer one.
    #[test]
    fn images_with_a_bit_turned() {
        let mut random = Random::new(93);
        let mut ways = BTreeMap::new();
        for plan in plans(93, 4) {
            let mut image = image(&plan);
            for bit in bits_to_turn(image.len(), 400, 3_200, &mut random) {
                turn_bit(&mut image, bit);
                *ways.entry(read_in_both_ways(&image).way()).or_insert(0) += 1;
                turn_bit(&mut image, bit);
            }
        }
        assert!(
            ways.len() == 6 && ways.values().all(|&it| it > 50),
            "{ways:?}"
        );
    }

    #[test]
    fn drawn_bytes_are_read_in_every_way() {
        let mut random = Random::new(94);
        let mut ways = BTreeMap::new();
        for plan in plans(94, 20) {
            for _ in 0..300 {
                let bytes = drawn_bytes(&plan, &mut random);
                *ways.entry(read_in_both_ways(&bytes).way()).or_insert(0) += 1;
            }
        }
        assert!(
            ways.len() == 6 && ways.values().all(|&it| it > 1_000),
            "{ways:?}"
        );
    }

    #[test]
    fn every_two_bytes_are_read() {
        let mut taken = Vec::new();
        let one = (0..=255).map(|byte| vec![byte]);
        let two = (0..=u16::MAX).map(|both| both.to_be_bytes().to_vec());
        for bytes in one.chain(two).chain([vec![]]) {
            if let Reading::Taken(paths) = read_in_both_ways(&bytes) {
                taken.push((bytes, paths.len()));
            }
        }
        assert_eq!(taken, [(vec![0x00], 0)]);
    }

    /// (Ask 9, 5). Many of these plans are equal: they have a line or two of short periods.
    #[test]
    fn bytes_are_equal_where_trees_are() {
        let mut random = Random::new(95);
        let mut plans = plans(95, 10);
        for _ in 0..400 {
            let mut plan = Plan::empty();
            for _ in 0..6 {
                let line = random.below(2);
                let _ = plan.open(line, 1 + random.below(4));
                let _ = plan.close(random.below(6));
            }
            plans.push(plan);
        }
        let images: Vec<Vec<u8>> = plans.iter().map(image).collect();
        let mut equal = 0;
        for (at, one) in plans.iter().enumerate() {
            for (other_at, other) in plans[..at].iter().enumerate() {
                assert_eq!(one == other, images[at] == images[other_at]);
                equal += usize::from(one == other);
            }
        }
        assert!(equal > 1_000, "{equal}");
        assert!(BTreeSet::from_iter(images).len() > 100);
    }

    #[test]
    fn the_buffer_stays_behind_an_image() {
        for plan in plans(96, 4) {
            let image = image(&plan);
            let length = image.len();
            for room in [0, 1, length - 1, length, length + 1, length + 100, 4_096] {
                let mut buffer: Vec<u8> = (0..room).map(|at| at as u8 ^ 0x5a).collect();
                let found = buffer.clone();
                let answer = write(&plan, &mut buffer);
                if room < length {
                    assert_eq!(answer, Err(Refusal::AnswerBuffer));
                    assert_eq!(buffer, found);
                } else {
                    assert_eq!(answer, Ok(length));
                    assert_eq!(buffer, [&image, &found[length..]].concat());
                }
            }
        }
    }
}
