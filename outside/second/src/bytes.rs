//! "All numbers are unsigned, low byte first."

/// The number that stands in these bytes, eight at most, low byte first.
fn number(bytes: &[u8]) -> u64 {
    bytes
        .iter()
        .rev()
        .fold(0, |number, byte| (number << 8) | u64::from(*byte))
}

/// The 8-bit number at this offset; the caller has seen that it lies inside.
pub fn u8_at(row: &[u8], at: usize) -> u64 {
    number(&row[at..at + 1])
}

/// The 16-bit number at this offset.
pub fn u16_at(row: &[u8], at: usize) -> u64 {
    number(&row[at..at + 2])
}

/// The 32-bit number at this offset.
pub fn u32_at(row: &[u8], at: usize) -> u64 {
    number(&row[at..at + 4])
}

/// The 64-bit number at this offset.
pub fn u64_at(row: &[u8], at: usize) -> u64 {
    number(&row[at..at + 8])
}

/// Writes five 32-bit numbers, low byte first, into the first 20 bytes.
pub fn put_answer(block: &mut [u8], answer: [u32; 5]) {
    for (place, number) in block.chunks_exact_mut(4).zip(answer) {
        place.copy_from_slice(&number.to_le_bytes());
    }
}

/// Puts the low bytes of the number, that many, behind what stands there.
fn put(file: &mut Vec<u8>, number: u64, width: usize) {
    file.extend_from_slice(&number.to_le_bytes()[..width]);
}

/// Puts an 8-bit number; the caller has seen that it fits.
pub fn put_u8(file: &mut Vec<u8>, number: u64) {
    put(file, number, 1);
}

/// Puts a 16-bit number.
pub fn put_u16(file: &mut Vec<u8>, number: u64) {
    put(file, number, 2);
}

/// Puts a 32-bit number.
pub fn put_u32(file: &mut Vec<u8>, number: u64) {
    put(file, number, 4);
}

/// Puts a 64-bit number.
pub fn put_u64(file: &mut Vec<u8>, number: u64) {
    put(file, number, 8);
}
