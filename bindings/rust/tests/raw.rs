//! The library's own functions: an answer is a value, or minus the number of a refusal, and a refused call leaves all
//! that it was lent as found.

use gaplinte::raw;
use std::fmt::Debug;

/// Lends something that a refused call has to leave as found.
fn kept<T: Clone + PartialEq + Debug>(lent: &mut T, call: impl FnOnce(&mut T) -> i64) -> i64 {
    let found = lent.clone();
    let answer = call(lent);
    assert_eq!(*lent, found);
    answer
}

/// Line 5 is open with period 4.
fn one_line() -> [u16; raw::PLAN_NUMBERS] {
    let mut rows = [0; raw::PLAN_NUMBERS];
    assert_eq!(raw::open(&mut rows, 5, 4), 0);
    rows
}

#[test]
fn values() {
    let mut rows = one_line();
    assert_eq!(rows[22 * 5..22 * 5 + 4], [4, 0, 0, 0]);
    let mut tried = [7; 3];
    assert_eq!(raw::trial(&rows, 6, 6, &mut tried), 0);
    assert_eq!(tried, [1, 2, 1]);
    assert_eq!(rows, one_line());
    assert_eq!(raw::open(&mut rows, 6, 4), 1);
    assert_eq!(raw::reason(&rows, 4, 0, 0, 1), 6);
    assert_eq!(raw::reason(&rows, 2, 0, 0, 0), 5);
    assert_eq!(raw::owner(&rows, 4), 5);
    assert_eq!(raw::owner(&rows, u64::MAX - 2), 6);
    // The next owned rounds are 8 and 2^64.
    assert_eq!(raw::owner(&rows, 6), raw::IDLE_FROM + 2);
    assert_eq!(raw::owner(&rows, u64::MAX), 65);
    // Of the rounds 2 to 2^32 line 6 owns 5, 9 .. 2^32 - 3.
    assert_eq!(raw::turns(&rows, 6, 2, u32::MAX), (1 << 30) - 1);
    assert_eq!(raw::turns(&rows, 6, u64::MAX - 2, 1), 1);
    assert_eq!(raw::is_tree(&rows), 1);
    let mut shown = [7; raw::SHOWN_NUMBERS];
    assert_eq!(raw::show(&rows, 6, &mut shown), 0);
    assert_eq!(shown[..4], [4, 1, 4, 1]);
    assert_eq!(shown[4..], [0; 20]);
    let mut place = [4, 7];
    assert_eq!(raw::walk(&rows, &mut place), 5);
    assert_eq!(place, [5, 8]);
    let mut place = [6, 7];
    assert_eq!(raw::walk(&rows, &mut place), raw::IDLE_FROM + 2);
    assert_eq!(place, [7, 7]);
    assert_eq!(raw::close(&mut rows, 6), 0);
    assert_eq!(rows, one_line());
    assert_eq!(raw::close(&mut rows, 5), 0);
    assert_eq!(rows, [0; raw::PLAN_NUMBERS]);
    assert_eq!(raw::owner(&rows, 6), raw::IDLE_FROM);
    assert_eq!(raw::is_tree(&rows), 1);
    assert_eq!(raw::is_tree(&[1; raw::PLAN_NUMBERS]), 0);
}

/// 1 line; line 5 with 1 row; weight 4 and edge 0; 7 bits that are 0.
#[test]
fn an_image_is_bytes() {
    let rows = one_line();
    let image = [0x02, 0x28, 0x80, 0x20, 0x00, 0x00];
    let mut buffer = [0xee; 8];
    assert_eq!(raw::write_image(&rows, &mut buffer), 6);
    assert_eq!(buffer[..6], image);
    assert_eq!(buffer[6..], [0xee; 2]);
    let mut other = [9; raw::PLAN_NUMBERS];
    assert_eq!(raw::write_image(&other, &mut buffer[..1]), 1);
    assert_eq!(buffer[..2], [0x00, 0x28]);
    assert_eq!(raw::read_image(&mut other, &image), 0);
    assert_eq!(other, rows);
    assert_eq!(raw::read_image(&mut other, &[0x00]), 0);
    assert_eq!(other, [0; raw::PLAN_NUMBERS]);
}

/// The root has weight 2, and each side's tree has weight 4. `woven` was no tree.
#[test]
fn a_woven_record() {
    let mut other = [0; raw::PLAN_NUMBERS];
    assert_eq!(raw::open(&mut other, 6, 4), 0);
    let mut woven = [9; raw::PLAN_NUMBERS];
    assert_eq!(raw::weave(&one_line(), &other, &mut woven), 0);
    let mut expected = [0; raw::PLAN_NUMBERS];
    expected[22 * 5..22 * 5 + 4].copy_from_slice(&[2, 0, 4, 0]);
    expected[22 * 6..22 * 6 + 4].copy_from_slice(&[2, 1, 4, 0]);
    assert_eq!(woven, expected);
    let empty = [0; raw::PLAN_NUMBERS];
    assert_eq!(raw::weave(&empty, &empty, &mut woven), 0);
    assert_eq!(woven, empty);
}

/// Under edge 1 of the root, which has weight 2, stands a node of step 2.
#[test]
fn a_step_that_does_not_divide() {
    let mut rows = [0; raw::PLAN_NUMBERS];
    assert_eq!(raw::open(&mut rows, 0, 2), 0);
    assert_eq!(raw::open(&mut rows, 63, 4), 1);
    for class in [0, 1, 63, 64, u64::MAX] {
        let reason = raw::reason(&rows, 3, 1, 1, class);
        assert_eq!(reason, raw::STEP_DOES_NOT_DIVIDE);
    }
    assert_eq!(raw::reason(&rows, 4, 1, 1, 0), 63);
    assert_eq!(raw::reason(&rows, 4, 0, 0, 0), 0);
}

/// Of the rounds 2^64 - 3 to 2^64 + 6 line 5 owns 2^64 and 2^64 + 4, line 6 owns 2^64 - 3, 2^64 + 1 and 2^64 + 5.
#[test]
fn a_sheet_is_65_numbers() {
    let mut rows = one_line();
    assert_eq!(raw::open(&mut rows, 6, 4), 1);
    let mut sheet = [7; raw::SHEET_NUMBERS];
    assert_eq!(raw::sheet(&rows, u64::MAX - 2, 10, &mut sheet), 0);
    let mut expected = [0; raw::SHEET_NUMBERS];
    (expected[5], expected[6], expected[64]) = (2, 3, 5);
    assert_eq!(sheet, expected);
}

#[test]
fn a_refusal_is_minus_its_number() {
    let mut rows = one_line();
    for (line, period, answer) in [
        (64, 4, -1),
        (64, 0, -1),
        (0, 65_548, -2),
        (5, 4, -3),
        (1, 3, -5),
    ] {
        let refused = kept(&mut rows, |rows| raw::open(rows, line, period));
        assert_eq!(refused, answer);
        let tried = kept(&mut [7; 3], |tried| raw::trial(&rows, line, period, tried));
        assert_eq!(tried, answer);
    }
    for (line, answer) in [(64, -1), (u64::MAX, -1), (1, -4)] {
        assert_eq!(kept(&mut rows, |rows| raw::close(rows, line)), answer);
        assert_eq!(raw::turns(&rows, line, 0, 4), answer);
        let shown = kept(&mut [7; 24], |shown| raw::show(&rows, line, shown));
        assert_eq!(shown, answer);
    }
    for (period, level, offset, class, answer) in [
        (0, 9, 0, 9, -2),
        (65_540, 0, 0, 0, -2),
        (4, 0, 1, 9, -10),
        (4, 1, 0, 0, -10),
        (4, 1 << 32, 0, 0, -10),
        (4, 0, 1 << 16, 0, -10),
        (4, 0, 0, 4, -11),
        (4, 0, 0, 1 << 32, -11),
        (4, 0, 0, 1, -12),
    ] {
        let reason = kept(&mut rows, |rows| {
            raw::reason(rows, period, level, offset, class)
        });
        assert_eq!(reason, answer);
    }
    for mut place in [[u64::MAX, 0], [0, u64::MAX], [u64::MAX; 2]] {
        assert_eq!(kept(&mut place, |place| raw::walk(&rows, place)), -9);
    }
}

#[test]
fn refusals_of_orders() {
    for (kind, line, period, answer) in [
        (9, 64, 4096, -6),
        (2, 0, 0, -6),
        (u64::MAX, 0, 0, -6),
        (0, 64, 4096, -1),
        (1, 64, 1, -1),
        (0, 0, 65_548, -2),
        (1, 0, 65_548, -2),
        (1, 0, 1, -6),
    ] {
        let packed = kept(&mut [7; 3], |order| raw::pack(kind, line, period, order));
        assert_eq!(packed, answer);
    }
    for order in [[0x80, 0, 0], [0xc0, 0, 0], [0, 0, 1], [0x40, 0, 0x10]] {
        assert_eq!(kept(&mut [7; 3], |call| raw::read(&order, call)), -6);
    }
}

/// 7 comes before 8, and both before the first order.
#[test]
fn refusals_of_lists() {
    for (order_bytes, room, answer) in [
        (1, 0, -7),
        (4, 2, -7),
        (65_538, 0, -7),
        (65_538, 50_000, -7),
        (3, 0, -8),
        (3, 1, -8),
        (65_535, 43_689, -8),
    ] {
        let orders: Vec<u8> = [0x01, 0x00, 0x40]
            .into_iter()
            .cycle()
            .take(order_bytes)
            .collect();
        let mut lent = (one_line(), vec![0xee; room]);
        let run = kept(&mut lent, |(rows, answers)| {
            raw::run_list(rows, &orders, answers)
        });
        assert_eq!(run, answer, "{order_bytes} bytes, {room} lent");
    }
}

#[test]
fn refusals_of_images() {
    let rows = one_line();
    for room in 0..6 {
        let mut buffer = vec![0xee; room];
        let written = kept(&mut buffer, |buffer| raw::write_image(&rows, buffer));
        assert_eq!(written, -8);
    }
    let refused: [(&[u8], i64); 6] = [
        (&[], -13),
        (&[0x02, 0x28, 0x80, 0x20, 0x00], -13),
        (&[0x02, 0x28, 0x80, 0x20, 0x00, 0x00, 0x00], -13),
        (&[0x02, 0x28, 0x80, 0x20, 0x00, 0x01], -14),
        (&[0x02, 0x28, 0x80, 0x00], -14),
        (&[0x82], -14),
    ];
    for (bytes, answer) in refused {
        let mut rows = one_line();
        let read = kept(&mut rows, |rows| raw::read_image(rows, bytes));
        assert_eq!(read, answer, "{bytes:x?}");
    }
}

#[test]
fn refusals_of_weaving() {
    let mut long = [0; raw::PLAN_NUMBERS];
    assert_eq!(raw::open(&mut long, 6, 2048), 0);
    let one = one_line();
    for (a, b, answer) in [(&one, &one, -15), (&long, &long, -15), (&one, &long, -16)] {
        for number in [0, 9] {
            let mut woven = [number; raw::PLAN_NUMBERS];
            let refused = kept(&mut woven, |woven| raw::weave(a, b, woven));
            assert_eq!(refused, answer);
        }
    }
}
