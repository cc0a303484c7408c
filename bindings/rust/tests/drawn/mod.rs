//! Rounds to ask for, drawn.

use second::random::Random;

/// A first round near a border, or any.
pub fn first_round(random: &mut Random) -> u64 {
    let near = random.below(5000);
    let middle = 1 << 32;
    let firsts = [
        0,
        near,
        middle - near,
        middle + near,
        u64::MAX - near,
        u64::MAX,
        random.draw(),
    ];
    random.pick(&firsts)
}

/// A number of rounds for a sheet, small ones as often as large ones.
pub fn sheet_rounds(random: &mut Random) -> u16 {
    let bits = random.below(17);
    random.below(1 << bits) as u16
}
