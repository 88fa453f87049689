//! The two kinds of a stream: one table asks for starts, another does not, and a caller sees the
//! same interface.

use std::mem::size_of;

use watcher::{
    plain, raw, Error, Flags, Lists, Stream, Table, Windows, NO_LIMIT, STATE_WORDS, TRACE_WORDS,
};

const BLOCKS: [&[u8]; 4] = [b"xa", b"b", b"cab\nab", b"\n"];

fn table(flags: Flags) -> Table {
    let mut table = Table::new();
    table.add(3, flags, b"a(b|bc)").unwrap();
    table.add(4, Flags::NONE, b"b$").unwrap();
    table.add(9, Flags::MULTILINE, br"b\b").unwrap();
    table
}

/// A call's number or its bytes, reports and units; and all four lists, with what they held.
type Called = (Result<(usize, usize, u64), Error>, [[i128; 6]; 4]);

fn called(stream: &mut Stream, block: Option<&[u8]>) -> Called {
    let (mut ids, mut offsets, mut starts, mut relatives) = ([1; 6], [2; 6], [3; 6], [4; 6]);
    let lists = Lists {
        ids: &mut ids,
        offsets: &mut offsets,
        starts: &mut starts,
        relatives: &mut relatives,
    };
    let answer = match block {
        Some(block) => stream.scan_into(NO_LIMIT, block, lists),
        None => stream.close_into(lists),
    };
    let answer = answer.map(|answer| (answer.taken, answer.reports, answer.used));
    let lists = [ids.map(i128::from), offsets.map(i128::from), starts.map(i128::from)];
    (answer, [lists[0], lists[1], lists[2], relatives.map(i128::from)])
}

#[test]
fn a_stream_is_small_where_no_rule_reports_starts() {
    let (plain, starts) = (table(Flags::NONE), table(Flags::LEFTMOST_START));
    assert_eq!(Stream::open(&plain).state().len(), STATE_WORDS);
    assert_eq!(Stream::open(&starts).state().len(), TRACE_WORDS);
    assert_eq!(size_of::<Stream>(), 8 * (STATE_WORDS + 2));
}

#[test]
fn both_kinds_give_the_same_where_no_rule_reports_starts() {
    let table = table(Flags::NONE);
    let mut words = [7; TRACE_WORDS];
    assert_eq!(raw::trace_open(table.words(), &mut words), 0);
    let mut short = Stream::open(&table);
    let mut traced = Stream::resume(&table, &words).unwrap();
    let calls = BLOCKS.into_iter().map(Some).chain([None, None]);
    let mut reports = 0;
    for block in calls {
        let answer = called(&mut short, block);
        assert_eq!(answer, called(&mut traced, block), "{block:?}");
        assert_eq!(short.busy(), traced.busy());
        assert_eq!(short.state(), &traced.state()[..STATE_WORDS]);
        assert!(traced.state()[STATE_WORDS..].iter().all(|&start| start == 0));
        let (Ok((_, written, _)), lists) = answer else { continue };
        reports += written;
        assert!(lists[2][..written].iter().all(|&start| start == 0));
        assert!(lists[3][..written].iter().all(|&start| start == 0));
        assert!(lists[2][written..].iter().all(|&old| old == 3));
        assert!(lists[3][written..].iter().all(|&old| old == 4));
    }
    assert_eq!(reports, 7);
}

#[test]
fn the_space_is_the_shortest_of_the_four_lists() {
    for flags in [Flags::NONE, Flags::LEFTMOST_START] {
        let table = table(flags);
        for short in 0..4 {
            let space = |list: usize| if list == short { 5 } else { 6 };
            let (mut ids, mut offsets, mut starts, mut relatives) =
                ([0; 6], [0; 6], [0; 6], [0; 6]);
            let lists = Lists {
                ids: &mut ids[..space(0)],
                offsets: &mut offsets[..space(1)],
                starts: &mut starts[..space(2)],
                relatives: &mut relatives[..space(3)],
            };
            let answer = Stream::open(&table).scan_into(NO_LIMIT, b"ab", lists);
            assert_eq!(answer, Err(Error::SmallSpace), "{flags:?}, list {short}");
        }
    }
}

#[test]
fn a_state_without_starts_is_refused_where_a_rule_reports_them() {
    let (plain, starts) = (table(Flags::NONE), table(Flags::LEFTMOST_START));
    let kept = Stream::open(&plain).state().to_vec();
    let mut stream = Stream::resume(&starts, &kept).unwrap();
    assert_eq!(stream.scan(NO_LIMIT, b"ab", |_| ()), Err(Error::BadState));
    assert_eq!(stream.close(|_| ()), Err(Error::BadState));
    for words in [0, STATE_WORDS - 1, STATE_WORDS + 1, TRACE_WORDS - 1, TRACE_WORDS + 1] {
        let stream = Stream::resume(&starts, &vec![0; words]);
        assert_eq!(stream.err(), Some(Error::ShortState), "{words} words");
    }
}

#[test]
fn starts_do_not_depend_on_the_blocks() {
    let table = table(Flags::LEFTMOST_START);
    let log = BLOCKS.concat();
    let mut wanted = vec![];
    for size in 1..=log.len() {
        let (mut stream, mut found) = (Stream::open(&table), vec![]);
        for block in log.chunks(size) {
            let kept = stream.state().to_vec();
            stream = Stream::resume(&table, &kept).unwrap();
            stream.scan(NO_LIMIT, block, |report| found.push(report)).unwrap();
        }
        stream.close(|report| found.push(report)).unwrap();
        wanted = if size == 1 { found.clone() } else { wanted };
        assert_eq!(found, wanted, "blocks of {size} bytes");
    }
    let starts: Vec<(u64, u64)> =
        wanted.iter().filter(|report| report.id == 3).map(|it| (it.start, it.end)).collect();
    assert_eq!(starts, [(1, 3), (1, 4), (4, 6), (7, 9)]);
    assert!(wanted.iter().all(|report| report.id == 3 || report.start == 0));
}

/// The rules with a smallest length of these flags, beside one without.
fn with_lengths(flags: Flags) -> Table {
    let mut table = Table::new();
    table.add_within(3, flags, Windows::new().at_least(2), br"b|ab\b|b$").unwrap();
    table.add_within(4, flags, Windows::new().at_least(2).ends_to(5), b"[ab]+").unwrap();
    table.add(9, Flags::NONE, b"b").unwrap();
    table
}

#[test]
fn additions_without_windows_are_one() {
    let (mut plain, mut within) = (Table::new(), Table::new());
    for (id, pattern) in [(7, &b"foo.*bar"[..]), (2, b"a+"), (2, b"b"), (8, b"a**")] {
        let one = plain.add(id, Flags::NONE, pattern);
        assert_eq!(one, within.add_within(id, Flags::NONE, Windows::default(), pattern));
        assert!(plain.words() == within.words());
    }
}

#[test]
fn a_smallest_length_needs_starts_and_end_offsets_need_none() {
    let add = |windows| {
        let mut table = Table::new();
        table.add_within(1, Flags::NONE, windows, b"a+").unwrap();
        Stream::open(&table).state().len()
    };
    assert_eq!(add(Windows::new().ends_from(1).ends_to(9)), STATE_WORDS);
    assert_eq!(add(Windows::new().at_least(0)), STATE_WORDS);
    assert_eq!(add(Windows::new().at_least(1)), TRACE_WORDS);
}

#[test]
fn a_state_without_starts_is_refused_where_a_rule_has_a_smallest_length() {
    let table = with_lengths(Flags::NONE);
    let mut words = [0; STATE_WORDS];
    assert_eq!(raw::open(table.words(), &mut words), 0);
    let mut stream = Stream::resume(&table, &words).unwrap();
    assert_eq!(stream.scan(NO_LIMIT, b"ab", |_| ()), Err(Error::BadState));
    assert_eq!(stream.close(|_| ()), Err(Error::BadState));
}

#[test]
fn lengths_do_not_depend_on_the_blocks() {
    let log = b"ab-bbab\n";
    for (flags, second) in [(Flags::NONE, 0), (Flags::LEFTMOST_START, 5)] {
        let table = with_lengths(flags);
        for size in 1..=log.len() {
            let (mut stream, mut found) = (Stream::open(&table), vec![]);
            for block in log.chunks(size) {
                let mut rest = block;
                while !rest.is_empty() {
                    let taken = stream.scan(NO_LIMIT, rest, |report| found.push(report)).unwrap();
                    rest = &rest[taken.taken..];
                }
            }
            stream.close(|report| found.push(report)).unwrap();
            let of = |id: u32| found.iter().filter(move |report| report.id == id);
            let threes: Vec<(u64, u64)> = of(3).map(|report| (report.start, report.end)).collect();
            assert_eq!(threes, [(0, 2), (second, 7)], "blocks of {size} bytes");
            let fours: Vec<u64> = of(4).map(|report| report.end).collect();
            assert_eq!(fours, [2, 5], "blocks of {size} bytes");
            assert_eq!(of(9).count(), 4);
        }
    }
}

#[test]
fn the_plain_matcher_takes_the_same_windows() {
    let log = b"xbbbaab abab\nab";
    for lowest in 0..4 {
        for highest in [2, 5, 11, 15, u64::MAX] {
            for shortest in 0..5 {
                let windows = Windows::new().ends_from(lowest).ends_to(highest).at_least(shortest);
                let (mut table, mut scanned, mut asked) = (Table::new(), vec![], vec![]);
                let (flags, pattern) = (Flags::LEFTMOST_START, br"a*b+\b|b$|[ab]{2}");
                let added = table.add_within(1, flags, windows, pattern);
                let answer = plain(pattern, flags, windows, log, |hit| asked.push(hit));
                assert_eq!(added, answer);
                let mut stream = Stream::open(&table);
                let mut note = |report: watcher::Report| {
                    scanned.push(watcher::Match { start: report.start, end: report.end })
                };
                stream.scan(NO_LIMIT, log, &mut note).unwrap();
                stream.close(&mut note).unwrap();
                assert_eq!(scanned, asked, "{windows:?}");
            }
        }
    }
}
