//! Bytes made of fields, as document 02, Ask 9, says that an image is.

/// A field: its width in bits, and its number.
pub type Field = (usize, u16);

/// A line's number, and the weight and the edge of each row of its path.
pub type Path<'rows> = (u16, &'rows [(u16, u16)]);

/// The fields one behind the other, each from its highest bit on. What is left of the last byte is 0.
pub fn packed(fields: &[Field]) -> Vec<u8> {
    let bits = |&(width, number): &Field| (0..width).rev().map(move |bit| number >> bit & 1 == 1);
    let bits: Vec<bool> = fields.iter().flat_map(bits).collect();
    let byte = |bits: &[bool]| {
        (0..8).fold(0, |byte, bit| {
            byte << 1 | u8::from(bits.get(bit) == Some(&true))
        })
    };
    bits.chunks(8).map(byte).collect()
}

/// The fields of the paths of so many lines.
pub fn fields(paths: &[Path]) -> Vec<Field> {
    let mut fields = vec![(7, paths.len() as u16)];
    for (line, rows) in paths {
        fields.extend([(6, *line), (4, rows.len() as u16)]);
        fields.extend(
            rows.iter()
                .flat_map(|&(weight, edge)| [(12, weight), (12, edge)]),
        );
    }
    fields
}

/// The image with these paths, also where they are no legal tree.
pub fn image(paths: &[Path]) -> Vec<u8> {
    packed(&fields(paths))
}
