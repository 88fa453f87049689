//! What every scan owes for the work it may do, whatever the words, the state and the block are: the
//! units that it used, and that more units only carry the same lists further.

use corpus::Starts;

/// No byte costs more: there are at most 256 live positions.
pub const MOST_UNITS: u64 = 257;

/// What a scan answered, and the lists as it left them.
pub struct Scanned<'l> {
    pub number: u32,
    pub taken: usize,
    pub count: usize,
    pub used: u64,
    pub ids: &'l [u32],
    pub offsets: &'l [u64],
    /// Those of a traced call.
    pub starts: Option<&'l Starts>,
}

impl Scanned<'_> {
    fn reports(&self) -> Vec<(u32, u64, u64, i64)> {
        let start = |slot: usize| match self.starts {
            Some(of) => Some((*of.starts.get(slot)?, *of.relatives.get(slot)?)),
            None => Some((0, 0)),
        };
        let report = |slot: usize| {
            let (start, relative) = start(slot)?;
            Some((*self.ids.get(slot)?, *self.offsets.get(slot)?, start, relative))
        };
        (0..self.count).map_while(report).collect()
    }

    fn lists(&self) -> (&[u32], &[u64], Option<&Starts>) {
        (self.ids, self.offsets, self.starts)
    }
}

/// The units of a scan with this allowance, before which the busy figure was this one: none if it was
/// refused, no more than it might, for each byte one at least and 257 at most, and for a single byte
/// just what it costs.
pub fn in_bounds(scanned: &Scanned, allowance: u64, busy: u64) -> Result<(), String> {
    let &Scanned { number, taken, used, .. } = scanned;
    let taken = taken as u64;
    let owed = match (number, taken) {
        (0, 1) => used == 1 + busy,
        (0, _) => taken <= used && used <= MOST_UNITS * taken,
        _ => used == 0,
    };
    if owed && used <= allowance {
        return Ok(());
    }
    Err(format!("{used} units of {allowance} for {taken} bytes after a busy figure of {busy}"))
}

/// Two scans of the same things, the second of which was allowed no less.
pub fn carried_further(less: &Scanned, more: &Scanned) -> Result<(), String> {
    let further = less.number == more.number
        && less.taken <= more.taken
        && less.used <= more.used
        && more.reports().starts_with(&less.reports());
    let same = less.taken < more.taken || (less.used == more.used && less.lists() == more.lists());
    if further && same {
        return Ok(());
    }
    let shown = |s: &Scanned| (s.number, s.taken, s.used, s.reports());
    let (less, more) = (shown(less), shown(more));
    Err(format!("more units gave (number, taken, used, reports) {more:?}, fewer gave {less:?}"))
}
