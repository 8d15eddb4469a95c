//! Numbers and parts of a file that may end anywhere.

/// The bytes from a place on, if the file has them.
pub fn part(file: &[u8], at: usize, length: usize) -> Option<&[u8]> {
    file.get(at..at.checked_add(length)?)
}

/// A 16-bit number, low byte first.
pub fn u16_at(file: &[u8], at: usize) -> Option<u16> {
    Some(u16::from_le_bytes(part(file, at, 2)?.try_into().ok()?))
}

/// A 32-bit number, low byte first.
pub fn u32_at(file: &[u8], at: usize) -> Option<u32> {
    Some(u32::from_le_bytes(part(file, at, 4)?.try_into().ok()?))
}

/// A file that ends before what its header says it has.
pub fn ends_early(file: &[u8], what: &str, end: usize) -> String {
    format!("the file stops too early: {what} ends at byte {end}, the file has {}", file.len())
}

/// The range of sides that the drives here have.
pub fn sides_of(number: u8) -> Result<usize, String> {
    match number {
        1 | 2 => Ok(usize::from(number)),
        _ => Err(format!("its header says {number} sides, which no disk has")),
    }
}

#[cfg(test)]
mod tests {
    use super::*;

    #[test]
    fn numbers_end_with_the_file() {
        let file = [1, 2, 3, 4, 5];
        assert_eq!(u16_at(&file, 3), Some(0x0504));
        assert_eq!(u16_at(&file, 4), None);
        assert_eq!(u32_at(&file, 1), Some(0x0504_0302));
        assert_eq!(u32_at(&file, usize::MAX), None);
    }
}
