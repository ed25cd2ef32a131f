//! Records of two-byte fields, the low byte first.

/// The first so many records of N fields each; fewer where the area is shorter.
pub fn records<const N: usize>(area: &[u8], count: usize) -> impl Iterator<Item = [u16; N]> {
    (0..count).map_while(|number| record(area, number))
}

/// The record of that number, if the area has it.
pub fn record<const N: usize>(area: &[u8], number: usize) -> Option<[u16; N]> {
    let (fields, _) = area.as_chunks::<2>();
    let from = number.checked_mul(N)?;
    let fields = fields.get(from..)?.first_chunk::<N>()?;
    Some(fields.map(u16::from_le_bytes))
}

/// The bytes of fields.
pub fn bytes(fields: impl IntoIterator<Item = u16>) -> Vec<u8> {
    fields.into_iter().flat_map(u16::to_le_bytes).collect()
}

#[cfg(test)]
mod tests {
    use super::*;

    #[test]
    fn fields_have_their_low_byte_first() {
        let area = [1, 2, 3, 4, 255, 255, 0, 1, 9];
        assert_eq!(record(&area, 1), Some([65_535, 256]));
        assert_eq!(record::<2>(&area, 2), None);
        assert_eq!(record::<2>(&area, usize::MAX), None);
        assert_eq!(records::<1>(&area, 9).count(), 4);
        assert_eq!(bytes([0x0201, 0x0403]), [1, 2, 3, 4]);
    }
}
