//! Short inputs, for each way in which an input can end; and a few others, for what hardly ever comes about in a session: a good line in
//! the rest of one that is too long, counts of bindings at the end, and more answers to what was read at once than a buffer holds.

use super::model::LONGEST;

const ASK: &[u8] = b"0005 073412";
const BIND: &[u8] = b"0021 0A0807060504030201010204010300";

/// All of them.
pub fn ends() -> Vec<Vec<u8>> {
    let fronts = [LONGEST, LONGEST + 1, LONGEST + 2, LONGEST + 3, 1 << 16];
    let rests = fronts.map(|front| [&vec![b'0'; front], BIND, b"\n"].concat());
    let counts = [9, 10, 12, 20, 32].map(bound);
    let others = rests.into_iter().chain(counts).chain([many()]);
    lasts().into_iter().chain(others).collect()
}

/// So many different entries are bound.
fn bound(count: u8) -> Vec<u8> {
    let line = |group| format!("0021 0A080706050403020101020401{group:02X}00\n");
    (0..count).map(line).collect::<String>().into_bytes()
}

/// Requests whose answers are three times as long: 5,000, with sequence numbers that go through all.
fn many() -> Vec<u8> {
    let line = |seq| format!("0004 {:02X}341201\n", seq % 256);
    (0..5000).map(line).collect::<String>().into_bytes()
}

/// Nothing; empty lines; a last line without a line feed that is empty, good, of another shape, as long as lines may be, and longer.
fn lasts() -> Vec<Vec<u8>> {
    let long = |length: usize| {
        let mut line = BIND.to_vec();
        line.resize(length, b'0');
        line
    };
    let first = |last: &[u8]| [ASK, b"\n", last].concat();
    vec![
        b"".to_vec(),
        b"\n".to_vec(),
        b"\n\n".to_vec(),
        ASK.to_vec(),
        BIND.to_vec(),
        first(b""),
        first(b"\n"),
        first(BIND),
        first(b"0"),
        first(b" "),
        first(b"\r"),
        first(b"\0"),
        first(b"\xFF"),
        long(LONGEST - 1),
        long(LONGEST),
        long(LONGEST + 1),
        long(2 * LONGEST),
        first(&long(LONGEST + 1)),
        [&long(LONGEST + 1), &b"\n"[..], BIND].concat(),
    ]
}
