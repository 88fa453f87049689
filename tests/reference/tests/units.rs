//! The work of a scan, worked by hand and asked of the model of the calls: a byte costs one unit plus
//! the busy figure before it.

use reference::calls::{Stream, Table, NO_LIMIT};
use reference::refusal::TABLE_WORDS;

fn opened(rules: &[(u32, &str)]) -> (Table, Stream) {
    let mut table = Table::lent(TABLE_WORDS);
    table.empty();
    for (id, (flags, pattern)) in rules.iter().enumerate() {
        table.add(id as u32, *flags, pattern.as_bytes()).expect("accepted");
    }
    let (_, stream) = table.open();
    (table, stream)
}

/// The number, the bytes taken, the units used and the reports of one scan.
fn scan(
    table: &Table,
    stream: &mut Stream,
    allowance: u64,
    block: &[u8],
) -> (u32, usize, u64, Vec<(u32, u64)>) {
    let (mut ids, mut offsets) = ([77; 40], [77; 40]);
    let answer = stream.clone().scan(table, allowance, block, &mut ids, &mut offsets);
    *stream = answer.stream;
    assert!(ids[answer.count..].iter().all(|&id| id == 77));
    let reports = ids.into_iter().zip(offsets).take(answer.count).collect();
    (answer.number, answer.taken, answer.used, reports)
}

#[test]
fn each_byte_has_its_cost() {
    let (table, mut stream) = opened(&[(0, "foo.*bar")]);
    let costs: Vec<u64> = b"fooxyzbarbar"
        .iter()
        .map(|byte| scan(&table, &mut stream, NO_LIMIT, &[*byte]).2)
        .collect();
    assert_eq!(costs, [1, 2, 2, 2, 2, 2, 2, 3, 3, 3, 3, 3]);
}

#[test]
fn exactly_enough_and_one_too_little() {
    let (table, mut stream) = opened(&[(0, "ab|ac"), (8, "a")]);
    assert_eq!(scan(&table, &mut stream, 0, b"ab"), (0, 0, 0, vec![]));
    assert_eq!(scan(&table, &mut stream, 1, b"ab"), (0, 1, 1, vec![(1, 1)]));
    assert_eq!(scan(&table, &mut stream, 3, b"b"), (0, 0, 0, vec![]));
    assert_eq!(scan(&table, &mut stream, 4, b"b"), (0, 1, 4, vec![(0, 2)]));
}

#[test]
fn more_units_carry_the_same_reports_further() {
    let (table, stream) = opened(&[(0, "a"), (0, "."), (8, "b+")]);
    let log = b"abba\nab";
    let all = scan(&table, &mut stream.clone(), NO_LIMIT, log);
    let mut before = (0, 0);
    for allowance in 0..=all.2 {
        let (number, taken, used, reports) = scan(&table, &mut stream.clone(), allowance, log);
        assert!(number == 0 && used <= allowance && before <= (taken, used));
        assert_eq!(reports, all.3[..reports.len()]);
        before = (taken, used);
    }
    assert_eq!(before, (log.len(), all.2));
}

#[test]
fn a_byte_costs_at_most_257() {
    let (table, mut stream) = opened(&[(0, "a{256}")]);
    assert_eq!(scan(&table, &mut stream, NO_LIMIT, &[b'a'; 255]).2, 255 + 255 * 254 / 2);
    assert_eq!(scan(&table, &mut stream, 256, b"aa"), (0, 1, 256, vec![(0, 256)]));
    assert_eq!(scan(&table, &mut stream, 256, b"aa"), (0, 0, 0, vec![]));
    assert_eq!(scan(&table, &mut stream, 257, b"aa"), (0, 1, 257, vec![(0, 257)]));
}

#[test]
fn what_waits_for_the_end_is_not_paid_for() {
    let (table, mut stream) = opened(&[(0, "a$\\n"), (0, "a$")]);
    assert_eq!(scan(&table, &mut stream, 4, b"a\nx"), (0, 2, 4, vec![]));
    assert_eq!(scan(&table, &mut stream, 1, b"x"), (0, 1, 1, vec![]));
}
