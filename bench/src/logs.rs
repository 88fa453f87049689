//! The logs. Two are a logger's records, made from a seed: a quiet log has a fault once in a
//! thousand records; in a busy one about every other record has something that a rule looks for, or
//! nearly. The third is the shipped example's log over and over.

use harness::rng::Rng;

pub const BYTES: usize = 4 << 20;

/// What a record has in place of `ok`.
pub const FAULTS: &[&str] = &[
    "FAULT E417",
    "OVERLOAD",
    "slack ROPE",
    "WARN near LIMIT",
    "BRAKE ON",
    "CALIBRATION LOST",
    "N=-12",
    "RST#04",
    "JUMP 31 kN",
    "GAP>22",
    "DRIFT +3",
    "CRC LOST",
    "ZERO SHIFT",
    "T=981",
    "LINKDOWN",
    "!!!",
    "VIB 7g",
    "SATCH2",
    "PWR<9V",
    "KEY 12",
    "GAUGE LOST",
    "UNDERSPEED",
    "FAULT E4",
    "OVERLOA",
    "WARN",
    "JUMP 3",
    "WATCH",
];

pub struct Log {
    pub name: &'static str,
    pub bytes: Vec<u8>,
}

pub fn quiet(seed: u64) -> Log {
    Log { name: "quiet", bytes: records(seed, 1_000) }
}

pub fn busy(seed: u64) -> Log {
    Log { name: "busy", bytes: records(seed, 2) }
}

/// It is cut in front, so that it ends as the example's log does.
pub fn example() -> Log {
    let whole = include_bytes!("../../examples/logger/log.txt");
    let bytes = whole.repeat(BYTES.div_ceil(whole.len()));
    Log { name: "example", bytes: bytes[bytes.len() - BYTES..].to_vec() }
}

fn records(seed: u64, fault_once_in: usize) -> Vec<u8> {
    let mut rng = Rng::new(seed);
    let mut log = Vec::with_capacity(BYTES + 80);
    let mut record = 0;
    while log.len() < BYTES {
        let (load, rest) = (rng.below(90_000), rng.below(1_000));
        log.extend(format!("{record:08} ch{} load={load:05}.{rest:03} ", rng.below(4)).bytes());
        if rng.once_in(fault_once_in) {
            log.extend(rng.pick(FAULTS).bytes());
        } else {
            log.extend(b"ok");
        }
        log.push(b'\n');
        record += 1;
    }
    log.truncate(BYTES);
    log
}
