//! Rows as bits back to back, most significant first.
use crate::cells::Cells;
use crate::rules::Rules;
use lvl_addin::answer::Refusal;
use lvl_addin::row::CELLS;

/// The bits of a packed value.
pub const VALUE_BITS: u32 = 34;

/// The bits of one packed cell, and how many they are: a sign whether it is filled, then its value.
pub fn cell_bits(cell: Option<u64>) -> (u64, u32) {
    match cell {
        None => (0, 1),
        Some(value) => (1 << VALUE_BITS | value, 1 + VALUE_BITS),
    }
}

/// The bits that fill the last byte of a row.
pub fn padding(_width: u32) -> u64 {
    0
}

/// Refuses a row for its lowest cell whose value has too many bits.
pub fn refuse_unpackable(cells: &Cells) -> Result<(), Refusal> {
    let too_great = |cell: &Option<u64>| cell.is_some_and(|value| value >> VALUE_BITS != 0);
    match cells.iter().position(too_great) {
        Some(at) => Err(Refusal {
            number: 4,
            cell: at as u32 + 1,
        }),
        None => Ok(()),
    }
}

/// The bytes that a packed row takes.
pub fn packed_length<R: Rules>(cells: &Cells) -> usize {
    let bits: u32 = cells.iter().map(|&cell| R::cell_bits(cell).1).sum();
    bits.div_ceil(8) as usize
}

/// Packs a row into the first of the lent bytes, and says how many; a refusal leaves them all as they were.
pub fn pack<R: Rules>(cells: &Cells, out: &mut [u8]) -> Result<usize, Refusal> {
    R::refuse_unpackable(cells)?;
    let length = R::packed_length(cells);
    let out = out
        .get_mut(..length)
        .ok_or(Refusal { number: 5, cell: 0 })?;
    R::write_packed(cells, out);
    Ok(length)
}

/// Writes the bits of a row to just as many bytes as they take.
pub fn write_packed<R: Rules>(cells: &Cells, out: &mut [u8]) {
    let mut bytes = out.iter_mut();
    let mut held = 0;
    let mut width = 0;
    for &cell in cells {
        let (bits, more) = R::cell_bits(cell);
        held = held << more | bits;
        width += more;
        while width >= 8 {
            width -= 8;
            if let Some(byte) = bytes.next() {
                *byte = (held >> width) as u8;
            }
        }
    }
    if let Some(byte) = bytes.next() {
        let missing = 8 - width;
        *byte = (held << missing | R::padding(missing)) as u8;
    }
}

/// Bits that are taken from the front of the input.
pub struct Bits<'a> {
    input: &'a [u8],
    taken: usize,
}

impl<'a> Bits<'a> {
    pub fn new(input: &'a [u8]) -> Bits<'a> {
        Bits { input, taken: 0 }
    }

    /// The next bits as a number, or none where the input ends before the last of them.
    pub fn take(&mut self, width: u32) -> Option<u64> {
        let end = self.taken + width as usize;
        if end > 8 * self.input.len() {
            return None;
        }
        let bit = |at: usize| u64::from(self.input[at / 8] >> (7 - at % 8) & 1);
        let number = (self.taken..end).fold(0, |number, at| number << 1 | bit(at));
        self.taken = end;
        Some(number)
    }

    /// How many bits are left in the byte that has been begun.
    pub fn left_in_byte(&self) -> u32 {
        (self.taken.next_multiple_of(8) - self.taken) as u32
    }

    /// The bytes that are used up or begun.
    pub fn bytes(&self) -> usize {
        self.taken.div_ceil(8)
    }
}

/// The next cell of a packed row, or none where the input does not hold all its bits.
pub fn take_cell(bits: &mut Bits) -> Option<Option<u64>> {
    match bits.take(1)? {
        0 => Some(None),
        _ => bits.take(VALUE_BITS).map(Some),
    }
}

/// The row at the front of the input and how many bytes it takes, or a refusal: for the lowest cell that the input
/// does not hold, or else for a padding bit that is set.
pub fn unpack<R: Rules>(input: &[u8]) -> Result<(Cells, usize), Refusal> {
    let mut bits = Bits::new(input);
    let mut cells = [None; CELLS];
    for (at, cell) in cells.iter_mut().enumerate() {
        *cell = R::take_cell(&mut bits).ok_or_else(|| R::cut_off(at + 1))?;
    }
    let padding = bits.take(bits.left_in_byte());
    if padding.is_some_and(R::spoils_padding) {
        return Err(Refusal { number: 7, cell: 0 });
    }
    Ok((cells, bits.bytes()))
}

/// The refusal of an input that ends before the last bit of this cell.
pub fn cut_off(number: usize) -> Refusal {
    Refusal {
        number: 6,
        cell: number as u32,
    }
}

/// Whether the bits that fill a row's last byte are not those that packing writes.
pub fn spoils_padding(padding: u64) -> bool {
    padding != 0
}
