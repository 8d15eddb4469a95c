//! Items and the CRC register.

pub const MARK: u16 = 0x100;
pub const MARK_A1: u16 = 0x1A1;
pub const MARK_C2: u16 = 0x1C2;
pub const CHECK: u16 = 0x200;

/// The register at the start of a list and before the first of some marks.
pub const ALL_ONES: u16 = 0xFFFF;

pub fn is_mark(item: u16) -> bool {
    (item == MARK_A1) | (item == MARK_C2)
}

pub fn is_item(number: u16) -> bool {
    (number < 256) | is_mark(number) | (number == CHECK)
}

/// The CRC register after 64 bits, which begin with the register itself: the remainder of t x^16 by
/// x^16 + x^12 + x^5 + 1. The quotient satisfies q = t ^ q >> 4 ^ q >> 11 ^ q >> 16, so it is t times
/// 1 / (1 + s4 + s11 + s16), where s4 is the shift by 4 and so on. Over bits squaring only doubles the exponents, so
/// that is (1 + s4 + s11 + s16)(1 + s8 + s22 + s32)(1 + s16 + s44)(1 + s32); shifts by 64 or more give nothing.
#[inline]
fn remainder_of(mut t: u64) -> u16 {
    t ^= t >> 32;
    t ^= (t >> 16) ^ (t >> 44);
    t ^= (t >> 8) ^ (t >> 22) ^ (t >> 32);
    t ^= (t >> 4) ^ (t >> 11) ^ (t >> 16);
    (t ^ (t << 5) ^ (t << 12)) as u16
}

/// The register after the bytes of the items, eight at a time.
fn crc_after(mut crc: u16, items: &[u16]) -> u16 {
    let (blocks, rest) = items.as_chunks::<64>();
    for block in blocks {
        let bytes = block.map(|item| item as u8);
        for eight in bytes.as_chunks::<8>().0 {
            crc = remainder_of(u64::from_be_bytes(*eight) ^ u64::from(crc) << 48);
        }
    }
    let (eights, rest) = rest.as_chunks::<8>();
    for eight in eights {
        crc = remainder_of(u64::from_be_bytes(eight.map(|item| item as u8)) ^ u64::from(crc) << 48);
    }
    for item in rest {
        crc = (crc << 8) ^ remainder_of(u64::from((item & 0xFF) ^ (crc >> 8)));
    }
    crc
}

/// The register after items without a check order, which begin a list or follow a check order. Only the last reset
/// counts: it stands before the first of the last marks that follow each other.
pub fn register_after(crc: u16, items: &[u16]) -> u16 {
    let mut front = items;
    while let Some((rest, eight)) = front.split_last_chunk::<8>() {
        if eight.iter().fold(0, |bits, item| bits | item) >= MARK {
            break;
        }
        front = rest;
    }
    let Some(last) = front.iter().rposition(|item| *item >= MARK) else { return crc_after(crc, items) };
    let first = front[..last].iter().rposition(|item| *item < MARK).map_or(0, |place| place + 1);
    crc_after(ALL_ONES, &items[first..])
}
