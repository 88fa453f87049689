//! The comparison of blocks finds what it is for: the plain writing agrees with itself, and each slip
//! of a writer or reader is noticed.

use harness::card::run;
use words::card::{sealed, words_of, Card, BLOCKS, BLOCK_BYTES};
use words::interpreter::Interpreter;
use words::layout::TABLE_WORDS;

#[derive(Clone, Copy, Debug, PartialEq)]
enum Slip {
    /// The filler is what the lent block held.
    FillerLeft,
    /// A refused block is answered at place 0.
    PlaceLost,
    /// The number in the block is not looked at.
    NumberNotCompared,
    /// Bytes after the used part are not looked at.
    FillerNotSeen,
    /// Words are written before the block is checked.
    WrittenFirst,
    /// The last block is read as a full one.
    LastReadFull,
}

struct Slipping(Slip);

impl Card for Slipping {
    fn write_block(&self, table: &[u64], number: u64, block: &mut [u8]) -> (u32, u64) {
        let lent = block.to_vec();
        let answer = Interpreter.write_block(table, number, block);
        if answer.0 == 0 && self.0 == Slip::FillerLeft {
            let used = 4 + 8 * words_of(number as usize).len();
            block[used..508].copy_from_slice(&lent[used..508]);
            block.copy_from_slice(&sealed(block.to_vec()));
        }
        match self.0 {
            Slip::PlaceLost => (answer.0, 0),
            _ => answer,
        }
    }

    fn read_block(&self, table: &mut [u64], number: u64, block: &[u8]) -> (u32, u64) {
        let long = block.len() == BLOCK_BYTES && table.len() >= TABLE_WORDS;
        let right = long && block[..] == sealed(block.to_vec())[..];
        let mut taken = block.to_vec();
        match self.0 {
            Slip::NumberNotCompared if right => {
                taken[..2].copy_from_slice(&(number as u16).to_le_bytes());
                taken = sealed(taken);
            }
            Slip::FillerNotSeen if right && number < BLOCKS as u64 => {
                taken[4 + 8 * words_of(number as usize).len()..508].fill(0);
                taken = sealed(taken);
            }
            Slip::WrittenFirst if long && number < BLOCKS as u64 => {
                table[words_of(number as usize).start] = 0;
            }
            _ => {}
        }
        let answer = Interpreter.read_block(table, number, &taken);
        if answer.0 == 0 && self.0 == Slip::LastReadFull && table.len() > TABLE_WORDS {
            table[TABLE_WORDS] = 0;
        }
        answer
    }
}

#[test]
fn the_plain_card_agrees_with_itself() {
    let count = run(&Interpreter, 1, 0, 20).unwrap();
    assert!(count.tables > 5);
    for number in [0, 1, 27] {
        assert!(
            count.written.get(&number).is_some_and(|&n| n > 5),
            "written: {number} is too rare"
        );
        assert!(count.read.get(&number).is_some_and(|&n| n > 5), "read: {number} is too rare");
    }
}

#[test]
fn each_slip_is_noticed() {
    for slip in [
        Slip::FillerLeft,
        Slip::PlaceLost,
        Slip::NumberNotCompared,
        Slip::FillerNotSeen,
        Slip::WrittenFirst,
        Slip::LastReadFull,
    ] {
        assert!(run(&Slipping(slip), 1, 0, 20).is_err(), "{slip:?} was not noticed");
    }
}
