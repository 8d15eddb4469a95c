//! Writer and sector maker.

use ism::sys::{Answer, Profile};

use super::register::{is_item, register_after, ALL_ONES, CHECK, MARK_A1, MARK_C2};
use super::{check_profile, counted, either, refused, MAX_BYTES};

/// Whether a cell ends in the lower of two neighbouring bits: unless it is a 0 behind a 1.
const fn cell_ends(window: usize, shift: u32) -> usize {
    (window >> shift & 3 != 2) as usize
}

/// Bits become cells by what stands around them. The cell that ends in a bit depends on three bits before and one
/// behind: bits that differ are what makes a cell longer than 2 units. So a window of eight bits, three before, four
/// and one behind, has the cells that end in its four middle bits. This is how many.
const CELLS_IN: [u8; 256] = {
    let mut cells = [0; 256];
    let mut w = 0;
    while w < 256 {
        cells[w] = (cell_ends(w, 4) + cell_ends(w, 3) + cell_ends(w, 2) + cell_ends(w, 1)) as u8;
        w += 1;
    }
    cells
};

/// What stands before the first byte: a 0 that is no part of a byte.
const LEAD: u16 = 0x400;

/// Up to so many bytes the table of eight bits costs more than it saves.
const FEW: usize = 128;

/// What depends on the profile. `WINDOWS` is 256, or 0 to do without `cells`.
struct Tables<const WINDOWS: usize> {
    /// by zeros in the cell before, zeros, zeros in the cell behind; before and behind: none or some
    length: [[[u16; 2]; 3]; 2],
    /// by window of five bits: the length of the cell that ends in its fourth
    one: [u16; 32],
    /// by window of eight bits: the lengths of its cells, the first `CELLS_IN` of them
    cells: [[u16; 4]; WINDOWS],
}

fn lengths(p: &Profile) -> [[[u16; 2]; 3]; 2] {
    let point = [[2 * p.normal, 2 * p.early], [2 * p.late, 2 * p.normal]];
    let mut length = [[[0; 2]; 3]; 2];
    for (before, by_zeros) in length.iter_mut().enumerate() {
        for (zeros, by_behind) in by_zeros.iter_mut().enumerate() {
            let some = usize::from(zeros > 0);
            let nominal = p.t1 + zeros as u16 * p.t0;
            *by_behind =
                [0, 1].map(|behind| nominal.wrapping_add(point[some][behind]).wrapping_sub(point[before][some]));
        }
    }
    length
}

/// Which length the cell has that ends in the fourth of five bits a b c d e, if one does.
const LENGTH_OF: [[u8; 3]; 32] = {
    let mut places = [[0; 3]; 32];
    let mut w = 0;
    while w < 32 {
        let (a, b, c, d, e) = (w >> 4 & 1, w >> 3 & 1, w >> 2 & 1, w >> 1 & 1, w & 1);
        places[w as usize] = if c == 1 { [1 - b, 0, d ^ e] } else { [a ^ b, b + d, d ^ e] };
        w += 1;
    }
    places
};

/// Cells of two bits and of four: the cells of the second half stand behind those of the first.
fn cells<const WINDOWS: usize>(one: &[u16; 32]) -> [[u16; 4]; WINDOWS] {
    let (mut two, mut four) = ([[0; 2]; 64], [[0; 4]; WINDOWS]);
    if WINDOWS > 0 {
        for (window, cells) in two.iter_mut().enumerate() {
            *cells = [one[window >> 1]; 2];
            cells[cell_ends(window, 2)] = one[window & 31];
        }
    }
    for (first, windows) in four.chunks_exact_mut(4).enumerate() {
        let behind = cell_ends(first, 2) + cell_ends(first, 1);
        for (last, cells) in windows.iter_mut().enumerate() {
            cells[..2].copy_from_slice(&two[first & 63]);
            cells[behind..behind + 2].copy_from_slice(&two[(4 * first + last) & 63]);
        }
    }
    four
}

impl<const WINDOWS: usize> Tables<WINDOWS> {
    fn new(p: &Profile) -> Self {
        let length = lengths(p);
        let one = LENGTH_OF.map(|place| {
            let [before, zeros, behind] = place.map(usize::from);
            length[before][zeros][behind]
        });
        Tables { length, one, cells: cells(&one) }
    }

    /// The cells of a window to the place `at`; up to four are filled. The place behind them.
    #[inline(always)]
    fn put_window(&self, out: &mut [u16], mut at: usize, window: u16) -> usize {
        let window = usize::from(window & 0xFF);
        if WINDOWS > 0 {
            out[at..at + 4].copy_from_slice(&self.cells[window]);
            return at + usize::from(CELLS_IN[window]);
        }
        for shift in [3, 2, 1, 0] {
            out[at] = self.one[window >> shift & 31];
            at += cell_ends(window, shift + 1);
        }
        at
    }

    fn put(out: &mut [u16], at: usize, lengths: &[u16]) -> usize {
        out[at..at + lengths.len()].copy_from_slice(lengths);
        at + lengths.len()
    }

    /// The second half of a byte: of a mark, whose left out clock makes a cell of 4 units, or as its window says.
    fn put_second_half(&self, out: &mut [u16], at: usize, byte: u16, next: u16) -> usize {
        let [_, three, four] = self.length[1];
        match byte {
            LEAD => at,
            MARK_A1 => Self::put(out, at, &[three[1], four[1], three[usize::from(next < 128)]]),
            MARK_C2 => Self::put(out, at, &[four[1], three[1]]),
            _ => self.put_window(out, at, byte << 1 | next >> 7),
        }
    }

    /// A byte that is a mark or follows one or the lead. In C2 the cell behind the first half is the one of 4 units.
    #[inline(never)]
    fn put_beside_mark(&self, out: &mut [u16], at: usize, last: u16, byte: u16) -> usize {
        let at = self.put_second_half(out, at, last, byte & 0xFF);
        let at = self.put_window(out, at, (last << 8 | byte & 0xFF) >> 3);
        if byte == MARK_C2 {
            out[at - 1] = self.length[0][1][1];
        }
        at
    }

    /// Bytes, data or marks, behind `last`. Four places are filled for every half byte. What goes beyond its cells is
    /// still of this stream: at least two cells of the last half byte and the closing one are to come.
    fn put_bytes(&self, out: &mut [u16], mut at: usize, mut last: u16, bytes: &[u16]) -> (usize, u16) {
        for byte in bytes {
            if last | byte > 0xFF {
                at = self.put_beside_mark(out, at, last, *byte);
            } else {
                let bits = last << 8 | byte;
                at = self.put_window(out, at, bits >> 7);
                at = self.put_window(out, at, bits >> 3);
            }
            last = *byte;
        }
        (at, last)
    }

    /// The last half byte and the closing 0s, whose cells are exactly counted.
    fn close(&self, out: &mut [u16], at: usize, last: u16) -> usize {
        let mut rest = [0; 8];
        let behind = self.put_second_half(&mut rest, 0, last, 0);
        self.put_window(&mut rest, behind, last << 5);
        let count = behind + if last & 1 == 1 { 1 } else { 2 };
        Self::put(out, at, &rest[..count])
    }
}

fn write_cells<const WINDOWS: usize>(p: &Profile, items: &[u16], checks: u16, out: &mut [u16]) -> usize {
    let tables: Tables<WINDOWS> = Tables::new(p);
    let (mut at, mut last) = (0, LEAD);
    each_stretch(items, checks, |bytes| (at, last) = tables.put_bytes(out, at, last, bytes));
    tables.close(out, at, last)
}

/// The written bytes of a list, given in stretches: those up to the next check order, then its two bytes.
pub fn each_stretch(items: &[u16], mut checks: u16, mut take: impl FnMut(&[u16])) {
    let (mut rest, mut crc) = (items, ALL_ONES);
    while checks > 0 {
        let place = rest.iter().position(|item| *item == CHECK).unwrap_or(rest.len());
        crc = register_after(crc, &rest[..place]);
        take(&rest[..place]);
        take(&crc.to_be_bytes().map(u16::from));
        // the register's own two bytes leave it at 0
        crc = 0;
        checks -= 1;
        rest = &rest[place + 1..];
    }
    take(rest);
}

/// Bits of a byte in which no cell ends: a 0 behind a 1, and the left out clock of a mark.
#[inline]
fn bits_without_cell(before: u16, byte: u16) -> u16 {
    let falls = (before << 7 | (byte & 0xFF) >> 1) & !byte & 0xFF;
    let falls = (falls & 0x55) + (falls >> 1 & 0x55);
    let falls = (falls & 0x33) + (falls >> 2 & 0x33);
    (falls & 15) + (falls >> 4) + (byte >> 8)
}

fn count_cells(items: &[u16], checks: u16, written: usize) -> usize {
    let (mut without, mut last) = (0, 0);
    each_stretch(items, checks, |bytes| {
        if let [first, .., end] | [first @ end] = bytes {
            without += bits_without_cell(last, *first);
            without +=
                bytes.iter().zip(&bytes[1..]).map(|(before, byte)| bits_without_cell(*before, *byte)).sum::<u16>();
            last = *end;
        }
    });
    8 * written + 2 - usize::from(without + (last & 1))
}

#[inline(never)]
pub fn plain_rust_write(profile: Profile, items: &[u16], out: &mut [u16]) -> Answer {
    either(write(&profile, items, out))
}

fn write(p: &Profile, items: &[u16], out: &mut [u16]) -> Result<Answer, Answer> {
    check_profile(p)?;
    if items.len() > MAX_BYTES {
        return Err(refused(4, 0));
    }
    let (mut checks, mut foreign) = (0, false);
    for item in items {
        checks += u16::from(*item == CHECK);
        foreign |= !is_item(*item);
    }
    let written = items.len() + usize::from(checks);
    if written > MAX_BYTES {
        return Err(refused(4, 0));
    }
    if foreign {
        return Err(refused(3, items.iter().position(|item| !is_item(*item)).unwrap_or(0)));
    }
    if out.len() < 8 * written + 2 && out.len() < count_cells(items, checks, written) {
        return Err(refused(9, 0));
    }
    let count = if written <= FEW {
        write_cells::<0>(p, items, checks, out)
    } else {
        write_cells::<256>(p, items, checks, out)
    };
    Ok(counted(count as u64))
}

/// Sync field, three marks and the address mark.
const fn field_start(address_mark: u16) -> [u16; 16] {
    let mut start = [0; 16];
    start[12] = MARK_A1;
    start[13] = MARK_A1;
    start[14] = MARK_A1;
    start[15] = address_mark;
    start
}

#[inline(never)]
pub fn plain_rust_make_sector(id: [u8; 4], data: &[u8], out: &mut [u16]) -> Answer {
    let code = id[3];
    if !(1..=3).contains(&code) || data.len() != 128 << code {
        return refused(13, 0);
    }
    let count = data.len() + 114;
    if out.len() < count {
        return refused(9, 0);
    }
    put_sector(id, data, out);
    counted(count as u64)
}

/// The items of a sector, of any length code.
#[inline(always)]
pub fn put_sector(id: [u8; 4], data: &[u8], out: &mut [u16]) {
    let (header, rest) = out.split_at_mut(59);
    header[..16].copy_from_slice(&field_start(0xFE));
    header[16..20].copy_from_slice(&id.map(u16::from));
    header[20] = CHECK;
    header[21..43].fill(0x4E);
    header[43..].copy_from_slice(&field_start(0xFB));
    for (item, byte) in rest.iter_mut().zip(data) {
        *item = u16::from(*byte);
    }
    rest[data.len()] = CHECK;
    rest[data.len() + 1..data.len() + 55].fill(0x4E);
}
