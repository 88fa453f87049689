//! The words of a table with one rule more: the position automaton of the rule's written-out form,
//! as docs/TABLE.md lays it out. Reading and refusing is the reference's.

use reference::refusal::{MAX_PATTERN, MAX_POSITIONS as MOST_POSITIONS};
use reference::tree::Node;
use reference::windows::Windows;
use reference::written::Form;
use reference::{reader, written};

use crate::gaps::{numbered, Gap, FIRST_GAPS, FOLLOW_GAPS, INNER_GAPS, LAST_GAPS, UNSETTLED};
use crate::layout::{self, *};

/// Adds a rule to words that are a table. The number and the place.
pub fn add(
    words: &mut [u64],
    id: u32,
    flags: u32,
    windows: Windows,
    pattern: &[u8],
) -> (u32, usize) {
    add_changed(words, id, flags, windows, pattern, |tree| tree)
}

/// Adds a rule whose tree is another than its pattern's: for slips in what a pattern means.
pub fn add_changed(
    words: &mut [u64],
    id: u32,
    flags: u32,
    windows: Windows,
    pattern: &[u8],
    change: impl Fn(Node) -> Node,
) -> (u32, usize) {
    let rules = words[RULES] as usize;
    if flags & !KNOWN_FLAGS != 0 {
        return (2, 0);
    }
    if flags & SINGLE_MATCH != 0 && flags & LEFTMOST_START != 0 {
        return (24, 0);
    }
    if words[layout::id(0)..layout::id(rules)].contains(&u64::from(id)) {
        return (3, 0);
    }
    if rules == MAX_RULES {
        return (4, 0);
    }
    if pattern.len() > MAX_PATTERN {
        return (5, 0);
    }
    if windows.fall() {
        return (26, 0);
    }
    let tree = match reader::read(pattern, flags) {
        Ok(tree) => change(tree),
        Err(refusal) => return (refusal.number, refusal.place),
    };
    let from = words[POSITIONS] as usize;
    let to = from + tree.positions();
    if to > MOST_POSITIONS {
        return (17, pattern.len());
    }
    let form = written::write_out(&tree);
    Writer { words, gaps: numbered(), from, to }.write(id, flags, windows, &form);
    (0, 0)
}

/// Takes from the sets that an addition goes through what is no position of the table: a table that
/// was built by additions has no such members, but damaged words may.
fn keep_old(words: &mut [u64]) {
    let positions = words[POSITIONS] as usize;
    let lasts = (0..LAST_GAPS).map(last);
    let firsts = (0..FIRST_GAPS).map(first);
    let follows = (0..FOLLOW_GAPS).flat_map(|gap| (0..positions).map(move |p| follow(gap, p)));
    let bytes = (0..=255u8).map(takers);
    for at in lasts.chain(firsts).chain(follows).chain(bytes).chain([KEEPERS]) {
        for i in 0..4 {
            words[at + i] &= match positions.saturating_sub(64 * i) {
                there @ 0..=63 => (1 << there) - 1,
                _ => u64::MAX,
            };
        }
    }
}

/// Writes the words that say of the sets of all rules what a scan asks first: with which bytes a match
/// can begin inside a stream, and with which positions one can end only where the next byte allows it.
pub fn write_gates(words: &mut [u64]) {
    let at_inner =
        |words: &[u64], set: fn(usize) -> usize, p| (0..INNER_GAPS).any(|g| has(words, set(g), p));
    let positions = 0..MAX_POSITIONS;
    let starts: Vec<usize> = positions.clone().filter(|&q| at_inner(words, first, q)).collect();
    for byte in 0..=255u8 {
        words[opener(byte)] = u64::from(starts.iter().any(|&q| has(words, takers(byte), q)));
    }
    words[LATES..LATES + 4].fill(0);
    for p in positions {
        if at_inner(words, last, p) && !has(words, last(UNSETTLED), p) {
            put(words, LATES, p);
        }
    }
}

/// Writes a rule, whose positions are numbered from `from` on and below `to`.
struct Writer<'w> {
    words: &'w mut [u64],
    /// A gap for each number.
    gaps: Vec<Gap>,
    from: usize,
    to: usize,
}

impl Writer<'_> {
    fn write(&mut self, id: u32, flags: u32, windows: Windows, form: &Form) {
        keep_old(self.words);
        for gap in 0..FOLLOW_GAPS {
            self.words[follow(gap, self.from)..follow(gap, self.to)].fill(0);
        }
        let place = self.new_place(u64::from(id));
        self.put_digit(SINGLES, place, flags & SINGLE_MATCH != 0);
        self.put_digit(LEFTMOSTS, place, flags & LEFTMOST_START != 0);
        self.put_windows(place, windows);
        if flags & LEFTMOST_START != 0 || windows.smallest_length > 0 {
            (self.from..self.to).for_each(|p| put(self.words, KEEPERS, p));
        }
        self.words[owner(self.from)..owner(self.to)].fill(place as u64);
        for gap in 0..LAST_GAPS {
            self.put_all(last(gap), &lasts(form, &self.gaps[gap]));
        }
        for gap in 0..FIRST_GAPS {
            self.put_all(first(gap), &firsts(form, &self.gaps[gap]));
        }
        self.inner(form);
        write_gates(self.words);
        self.words[RULES] += 1;
        self.words[POSITIONS] = self.to as u64;
    }

    /// Writes the end offsets by the rule's place, and the smallest length, or 0, for each position
    /// from the rule's first on: those past its last are written again by the rules that get them.
    fn put_windows(&mut self, place: usize, windows: Windows) {
        let Windows { smallest_end, largest_end, smallest_length } = windows;
        self.put_digit(WINDOWED, place, smallest_end > 0 || largest_end < u64::MAX);
        self.put_number(lowest(0), place, smallest_end);
        self.put_number(highest(0), place, largest_end);
        self.words[shortest(self.from)..shortest(MAX_POSITIONS)].fill(smallest_length);
        if smallest_length > 0 {
            self.words[LENGTHS] = 1;
        }
    }

    /// Makes room for a rule of this id: the rules from its place on move up by one, in their ids and as
    /// owners. Its place.
    fn new_place(&mut self, id: u64) -> usize {
        let rules = self.words[RULES] as usize;
        let ids = &self.words[layout::id(0)..layout::id(rules)];
        let place = ids.iter().filter(|&&other| other < id).count();
        self.put_number(layout::id(0), place, id);
        for owner in &mut self.words[owner(0)..owner(self.from)] {
            if (place as u64..MAX_RULES as u64).contains(owner) {
                *owner += 1;
            }
        }
        place
    }

    /// Puts a number for a new place among those of the rules, one each from `at` on; the later
    /// ones move up by one.
    fn put_number(&mut self, at: usize, place: usize, number: u64) {
        let rules = self.words[RULES] as usize;
        let numbers = &mut self.words[at..=at + rules];
        numbers.copy_within(place..rules, place + 1);
        numbers[place] = number;
    }

    /// Puts a bit for a new place into a word of bits by places, those from there on moved up by one.
    fn put_digit(&mut self, at: usize, place: usize, bit: bool) {
        let digits = &mut self.words[at];
        let below = *digits & ((1 << place) - 1);
        *digits = below | u64::from(bit) << place | (*digits - below) << 1;
    }

    fn put_all(&mut self, at: usize, positions: &[usize]) {
        positions.iter().for_each(|p| put(self.words, at, self.from + p));
    }

    /// Writes which positions follow which, and which bytes each takes.
    fn inner(&mut self, form: &Form) {
        match form {
            Form::Position(number, set) => {
                for byte in (0..=255u8).filter(|&byte| set.has(byte)) {
                    put(self.words, takers(byte), self.from + number);
                }
            }
            Form::Assert(_) => {}
            Form::Choice(branches) => branches.iter().for_each(|part| self.inner(part)),
            Form::Optional(of) => self.inner(of),
            Form::Plus(of) => {
                self.inner(of);
                self.link(of, of);
            }
            Form::Sequence(parts) => {
                for (index, part) in parts.iter().enumerate() {
                    self.inner(part);
                    self.link(part, &Form::Sequence(parts[index + 1..].to_vec()));
                }
            }
        }
    }

    /// Writes which positions of the second part follow which of the first, for each gap that may be
    /// between them.
    fn link(&mut self, part: &Form, next: &Form) {
        for gap in 0..FOLLOW_GAPS {
            let firsts = firsts(next, &self.gaps[gap]);
            for last in lasts(part, &self.gaps[gap]) {
                self.put_all(follow(gap, self.from + last), &firsts);
            }
        }
    }
}

/// Could it take no byte at this gap?
fn null(form: &Form, gap: &Gap) -> bool {
    match form {
        Form::Position(..) => false,
        Form::Assert(assertion) => gap.holds(*assertion),
        Form::Sequence(parts) => parts.iter().all(|part| null(part, gap)),
        Form::Choice(branches) => branches.iter().any(|branch| null(branch, gap)),
        Form::Optional(_) => true,
        Form::Plus(of) => null(of, gap),
    }
}

/// The positions that can take a first byte after this gap.
fn firsts(form: &Form, gap: &Gap) -> Vec<usize> {
    edge(form, gap, false)
}

/// The positions with which a way can end before this gap.
fn lasts(form: &Form, gap: &Gap) -> Vec<usize> {
    edge(form, gap, true)
}

fn edge(form: &Form, gap: &Gap, back: bool) -> Vec<usize> {
    match form {
        Form::Position(number, _) => vec![*number],
        Form::Assert(_) => Vec::new(),
        Form::Sequence(parts) => {
            let mut found = Vec::new();
            let mut order: Vec<&Form> = parts.iter().collect();
            if back {
                order.reverse();
            }
            for part in order {
                found.extend(edge(part, gap, back));
                if !null(part, gap) {
                    break;
                }
            }
            found
        }
        Form::Choice(branches) => {
            branches.iter().flat_map(|branch| edge(branch, gap, back)).collect()
        }
        Form::Optional(of) | Form::Plus(of) => edge(of, gap, back),
    }
}
