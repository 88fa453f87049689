//! Tables on the card: blocks written and read, compared with the plain writing in `words`: the
//! answer, and every lent byte and word afterwards. Tables are of any content, some of them none;
//! blocks have one byte changed, every byte in turn, or a wrong part and the right CRC, or a wrong
//! length. Case i of a run depends on the seed and on i alone.

use std::collections::BTreeMap;

use words::calls::Calls;
use words::card::{sealed, words_of, Card, BLOCKS, BLOCK_BYTES};
use words::interpreter::Interpreter;
use words::layout::TABLE_WORDS;

use crate::damaged::{self, same};
use crate::rng::Rng;

#[derive(Clone, Debug, Default)]
pub struct Count {
    pub cases: u64,
    pub tables: u64,
    /// Calls by their number.
    pub written: BTreeMap<u32, u64>,
    pub read: BTreeMap<u32, u64>,
}

/// Runs the cases from `first` on; the first disagreement is the error.
pub fn run<C: Card>(card: &C, seed: u64, first: u64, cases: u64) -> Result<Count, String> {
    let mut count = Count::default();
    for index in first..first + cases {
        let mut rng = Rng::for_case(seed, index);
        let mut run = Run { card, rng: &mut rng, count: &mut count };
        run.case().map_err(|message| format!("card, seed {seed}, case {index}: {message}"))?;
        count.cases += 1;
    }
    Ok(count)
}

struct Run<'r, C> {
    card: &'r C,
    rng: &'r mut Rng,
    count: &'r mut Count,
}

impl<C: Card> Run<'_, C> {
    fn case(&mut self) -> Result<(), String> {
        let table = damaged::table(self.rng);
        for number in 0..BLOCKS as u64 + 2 {
            self.write(&table, number, BLOCK_BYTES)?;
        }
        for _ in 0..8 {
            let number = self.number();
            let length = *self.rng.pick(&[0, 1, 508, 511, 512, 513, 1_024]);
            self.write(&table, number, length)?;
        }
        if Interpreter.test(&table) != 0 {
            return Ok(());
        }
        self.count.tables += 1;
        self.read_back(&table)?;
        let number = self.rng.below(BLOCKS) as u64;
        let block = self.write(&table, number, BLOCK_BYTES)?;
        self.changed_bytes(number, &block)?;
        let last = self.write(&table, BLOCKS as u64 - 1, BLOCK_BYTES)?;
        self.changed_bytes(BLOCKS as u64 - 1, &last)?;
        self.wrong_parts(number, &block)?;
        self.wrong_parts(BLOCKS as u64 - 1, &last)
    }

    /// A block's number, or one past the last, also far past it.
    fn number(&mut self) -> u64 {
        let near = self.rng.below(BLOCKS + 2) as u64;
        let far = *self.rng.pick(&[1 << 8, 1 << 16, 1 << 32, u64::MAX]);
        *self.rng.pick(&[near, far, near.wrapping_add(far), u64::MAX - near])
    }

    fn bytes(&mut self, length: usize) -> Vec<u8> {
        (0..length).map(|_| self.rng.byte()).collect()
    }

    /// Words of any content, sometimes more than a table has.
    fn words(&mut self) -> Vec<u64> {
        (0..TABLE_WORDS + self.rng.below(3)).map(|_| self.rng.word()).collect()
    }

    /// One block written by both; the block.
    fn write(&mut self, table: &[u64], number: u64, length: usize) -> Result<Vec<u8>, String> {
        let lent = self.bytes(length);
        let (mut block, mut expected) = (lent.clone(), lent);
        let answer = self.card.write_block(table, number, &mut block);
        let right = Interpreter.write_block(table, number, &mut expected);
        *self.count.written.entry(answer.0).or_default() += 1;
        same(&format!("answer to writing {number}"), answer, right)?;
        same(&format!("block {number}"), &block, &expected)?;
        Ok(block)
    }

    /// One block read by both into the same words; the answer.
    fn read(&mut self, words: &mut [u64], number: u64, block: &[u8]) -> Result<(u32, u64), String> {
        let mut expected = words.to_vec();
        let answer = self.card.read_block(words, number, block);
        let right = Interpreter.read_block(&mut expected, number, block);
        *self.count.read.entry(answer.0).or_default() += 1;
        same(&format!("answer to reading {number}"), answer, right)?;
        if words != expected {
            return Err(format!("words after reading {number} differ"));
        }
        Ok(answer)
    }

    /// Every block, in any order, into any words.
    fn read_back(&mut self, table: &[u64]) -> Result<(), String> {
        let mut words = self.words();
        let beyond = words[TABLE_WORDS..].to_vec();
        let mut order: Vec<u64> = (0..BLOCKS as u64).collect();
        for left in (1..order.len()).rev() {
            order.swap(left, self.rng.below(left + 1));
        }
        for number in order {
            let block = self.write(table, number, BLOCK_BYTES)?;
            same("answer to a table's block", self.read(&mut words, number, &block)?, (0, 0))?;
        }
        if words[..TABLE_WORDS] != table[..TABLE_WORDS] || words[TABLE_WORDS..] != beyond {
            return Err("the words read back are not the table's".to_string());
        }
        let mut few = self.words();
        few.truncate(TABLE_WORDS - 1 - self.rng.below(2) * self.rng.below(TABLE_WORDS));
        let number = self.number();
        let block = self.bytes(BLOCK_BYTES);
        same("answer on few words", self.read(&mut few, number, &block)?, (1, 0))
    }

    /// The block with each of its bytes changed in turn, by one bit or by any.
    fn changed_bytes(&mut self, number: u64, block: &[u8]) -> Result<(), String> {
        let mut words = self.words();
        for place in 0..block.len() {
            let mut changed = block.to_vec();
            let (bit, any) = (1 << self.rng.below(8), 1 + self.rng.below(255) as u8);
            changed[place] ^= *self.rng.pick(&[bit, any]);
            same(&format!("byte {place}"), self.read(&mut words, number, &changed)?, (27, number))?;
        }
        Ok(())
    }

    /// The block with wrong parts and the right CRC, of another length, or asked for by another number.
    fn wrong_parts(&mut self, number: u64, block: &[u8]) -> Result<(), String> {
        let mut words = self.words();
        for place in [0, 1, 2, 3, 4, 11, 12, 13, 20, 507] {
            let mut changed = block.to_vec();
            changed[place] ^= 1 + self.rng.below(255) as u8;
            self.read(&mut words, number, &sealed(changed))?;
        }
        let used = 4 + 8 * words_of(number as usize).len();
        for place in used..508 {
            let mut changed = block.to_vec();
            changed[place] = 1 + self.rng.below(255) as u8;
            same("filler", self.read(&mut words, number, &sealed(changed))?, (27, number))?;
        }
        for length in [0, 4, 508, 511] {
            same("length", self.read(&mut words, number, &block[..length])?, (27, number))?;
        }
        let long = [block, &[0][..]].concat();
        same("length", self.read(&mut words, number, &long)?, (27, number))?;
        let other = self.number();
        self.read(&mut words, other, block)?;
        let garbage = sealed(self.bytes(BLOCK_BYTES));
        self.read(&mut words, number, &garbage)?;
        Ok(())
    }
}
