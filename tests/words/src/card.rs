//! The table on the card, from docs/CARD.md alone: one block written, one block read. It builds the
//! whole block first and compares bytes; the CRC goes bit by bit.

use crate::calls::Calls;
use crate::interpreter::Interpreter;
use crate::layout::TABLE_WORDS;

pub const BLOCK_BYTES: usize = 512;
const BLOCK_WORDS: usize = 63;
const CRC_AT: usize = 508;

/// How many blocks a table takes.
pub const BLOCKS: usize = TABLE_WORDS.div_ceil(BLOCK_WORDS);

/// The two calls; each answers a number and a place.
pub trait Card {
    fn write_block(&self, table: &[u64], number: u64, block: &mut [u8]) -> (u32, u64);

    fn read_block(&self, table: &mut [u64], number: u64, block: &[u8]) -> (u32, u64);
}

/// CRC-32 of some bytes.
pub fn crc(bytes: &[u8]) -> u32 {
    let mut state = u32::MAX;
    for byte in bytes {
        state ^= u32::from(*byte);
        for _ in 0..8 {
            let out = state % 2;
            state /= 2;
            if out == 1 {
                state ^= 0xedb8_8320;
            }
        }
    }
    !state
}

/// The block with the right CRC at its end.
pub fn sealed(mut block: Vec<u8>) -> Vec<u8> {
    block.truncate(CRC_AT);
    let crc = crc(&block);
    block.extend(crc.to_le_bytes());
    block
}

/// The words of a block, as a range of the table's words.
pub fn words_of(number: usize) -> std::ops::Range<usize> {
    let first = number * BLOCK_WORDS;
    first..TABLE_WORDS.min(first + BLOCK_WORDS)
}

/// The block of this number with these words of a table.
fn image(number: usize, words: &[u64]) -> Vec<u8> {
    let mut block = Vec::new();
    block.extend((number as u16).to_le_bytes());
    block.extend((8 * words.len() as u16).to_le_bytes());
    for word in words {
        block.extend(word.to_le_bytes());
    }
    block.resize(CRC_AT, 0);
    sealed(block)
}

fn fits(number: u64, block: &[u8]) -> bool {
    block.len() == BLOCK_BYTES && number < BLOCKS as u64
}

impl Card for Interpreter {
    fn write_block(&self, table: &[u64], number: u64, block: &mut [u8]) -> (u32, u64) {
        if self.test(table) != 0 {
            return (1, 0);
        }
        if !fits(number, block) {
            return (27, number);
        }
        let number = number as usize;
        block.copy_from_slice(&image(number, &table[words_of(number)]));
        (0, 0)
    }

    /// A block is read where it is the image of the words that it leaves.
    fn read_block(&self, table: &mut [u64], number: u64, block: &[u8]) -> (u32, u64) {
        if table.len() < TABLE_WORDS {
            return (1, 0);
        }
        if !fits(number, block) {
            return (27, number);
        }
        let range = words_of(number as usize);
        let word = |bytes: &[u8]| u64::from_le_bytes(bytes.try_into().unwrap());
        let words: Vec<u64> = block[4..CRC_AT].chunks(8).take(range.len()).map(word).collect();
        if image(number as usize, &words) != block {
            return (27, number);
        }
        table[range].copy_from_slice(&words);
        (0, 0)
    }
}

#[cfg(test)]
mod tests {
    #[test]
    fn check_value() {
        assert_eq!(super::crc(b"123456789"), 0xcbf4_3926);
    }
}
