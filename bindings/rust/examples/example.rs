//! Two rules, their table to a card and back, a stream in two blocks with a match across the
//! border, the second in slices of work, and what was reported. Then a rule that reports where its
//! matches start: of a match that began in an earlier block the start measured from this one is
//! below zero. Then rules with windows, of which one has a smallest length.

use watcher::{
    Error, Flags, Lists, Report, Stream, Table, Windows, BLOCKS, BLOCK_BYTES, MAX_BYTE_UNITS,
    NO_LIMIT, REPORT_SLOTS,
};

fn main() -> Result<(), Error> {
    ends()?;
    with_starts()?;
    within()
}

fn ends() -> Result<(), Error> {
    let mut table = Table::new();
    table.add(7, Flags::NONE, b"foo.*bar")?;
    table.add(9, Flags::CASELESS, b"BAR$")?;
    if let Err(error) = table.add(8, Flags::NONE, b"a**") {
        println!("rule 8 refused {} at {}", error.number(), error.place());
    }
    let mut card = [[0; BLOCK_BYTES]; BLOCKS];
    for (number, block) in card.iter_mut().enumerate() {
        *block = table.block(number)?;
    }
    let table = Table::from_blocks(&card)?;
    let show = |report: Report| println!("{} {}", report.id, report.end);
    let mut stream = Stream::open(&table);
    stream.scan(NO_LIMIT, b"fooxyzb", show)?;
    let mut rest = &b"arbar"[..];
    while !rest.is_empty() {
        let slice = stream.scan(MAX_BYTE_UNITS, rest, show)?;
        rest = &rest[slice.taken..];
    }
    println!("busy {}", stream.busy());
    stream.close(show)
}

fn with_starts() -> Result<(), Error> {
    let mut table = Table::new();
    table.add(3, Flags::LEFTMOST_START, b"abc")?;
    table.add(4, Flags::NONE, b"b")?;
    table.add(5, Flags::LEFTMOST_START, b"bc$")?;
    show_blocks(&table, &[Some(b"xa"), Some(b"b"), Some(b"c"), None])
}

fn within() -> Result<(), Error> {
    let mut table = Table::new();
    table.add_within(6, Flags::NONE, Windows::new().ends_from(10).ends_to(15), b"foo.*bar")?;
    table.add_within(2, Flags::NONE, Windows::new().at_least(3), b"b+")?;
    let none = Windows::new().ends_from(15).ends_to(10);
    if let Err(error) = table.add_within(1, Flags::NONE, none, b"bar") {
        println!("rule 1 refused {} at {}", error.number(), error.place());
    }
    show_blocks(&table, &[Some(b"foo01bbb23bar bar"), None])
}

/// Scans these blocks, closes where there is none, and shows each report with its start.
fn show_blocks(table: &Table, blocks: &[Option<&[u8]>]) -> Result<(), Error> {
    println!("starts {}", u32::from(table.needs_starts()));
    let mut stream = Stream::open(table);
    let (mut ids, mut offsets) = ([0; REPORT_SLOTS], [0; REPORT_SLOTS]);
    let (mut starts, mut relatives) = ([0; REPORT_SLOTS], [0; REPORT_SLOTS]);
    for &block in blocks {
        let lists = Lists {
            ids: &mut ids,
            offsets: &mut offsets,
            starts: &mut starts,
            relatives: &mut relatives,
        };
        let answer = match block {
            Some(block) => stream.scan_into(NO_LIMIT, block, lists)?,
            None => {
                println!("busy {}", stream.busy());
                stream.close_into(lists)?
            }
        };
        for slot in 0..answer.reports {
            let (id, end, start, relative) =
                (ids[slot], offsets[slot], starts[slot], relatives[slot]);
            println!("{id} {end} start {start}, {relative} from here");
        }
    }
    Ok(())
}
