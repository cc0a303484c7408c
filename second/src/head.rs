//! The bytes that a step begins with, in a script of calls and in one of list calls: a kind,
//! then four numbers of 64 bits, most significant byte first; 0 for a number that the kind
//! does not use.

/// A kind and four numbers.
pub const HEAD_BYTES: usize = 1 + 4 * NUMBER_BYTES;
const NUMBER_BYTES: usize = 8;

pub fn write(kind: u8, numbers: [u64; 4]) -> [u8; HEAD_BYTES] {
    let mut head = [kind; HEAD_BYTES];
    for (bytes, number) in head[1..].chunks_exact_mut(NUMBER_BYTES).zip(numbers) {
        bytes.copy_from_slice(&number.to_be_bytes());
    }
    head
}

pub fn read(head: &[u8; HEAD_BYTES]) -> (u8, [u64; 4]) {
    let number = |from: usize| {
        head[from..from + NUMBER_BYTES]
            .iter()
            .fold(0, |number, byte| number << 8 | u64::from(*byte))
    };
    (head[0], [number(1), number(9), number(17), number(25)])
}

/// What the tests of scripts share.
#[cfg(test)]
pub(crate) mod scripts {
    use std::io;

    /// The bytes that are written.
    pub(crate) fn written(write: impl FnOnce(&mut Vec<u8>) -> io::Result<()>) -> Vec<u8> {
        let mut bytes = Vec::new();
        write(&mut bytes).unwrap();
        bytes
    }

    /// The steps of a script, up to the first that is not whole.
    pub(crate) fn read_back<S>(
        script: &[u8],
        read: impl Fn(&[u8]) -> Option<(S, &[u8])>,
    ) -> Vec<S> {
        let mut steps = Vec::new();
        let mut rest = script;
        while let Some((step, after)) = read(rest) {
            steps.push(step);
            rest = after;
        }
        steps
    }
}

#[cfg(test)]
mod tests {
    use super::*;

    #[test]
    fn numbers_stand_one_after_the_other() {
        let numbers = [0x0102_0304_0506_0708, 1 << 63, u64::MAX - 1, 1 << 32 | 7];
        let head = write(6, numbers);
        assert_eq!(head[..9], [6, 1, 2, 3, 4, 5, 6, 7, 8]);
        assert_eq!(head[9..18], [0x80, 0, 0, 0, 0, 0, 0, 0, 0xff]);
        assert_eq!(head[23..26], [0xff, 0xfe, 0]);
        assert_eq!(head[26..], [0, 0, 1, 0, 0, 0, 7]);
        assert_eq!(read(&head), (6, numbers));
    }
}
