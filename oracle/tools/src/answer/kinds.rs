//! The kinds of answers, by which a session is counted. A row is one of the ten clusters, another cluster, or another shape; a kind
//! begins with the status of the reply, and `R` is a refusal (cells.txt).

use super::device::LIMIT;
use crate::cells::row_with;

const OTHER_CLUSTER: &str = "another cluster";
const OTHER_SHAPE: &str = "another shape";

/// The row of a line's request, which is none where the line has another shape.
pub fn row(request: &Option<(u16, Vec<u8>)>) -> &'static str {
    let Some((cluster, _)) = request else {
        return OTHER_SHAPE;
    };
    row_with("answer", &format!("{cluster:04X} ")).unwrap_or(OTHER_CLUSTER)
}

/// The entries that are held by what was printed: each bind of SUCCESS that is not held adds one, each unbind of SUCCESS removes it.
/// An entry is the bytes of the payload that make it.
#[derive(Default)]
pub struct Held(Vec<Vec<u8>>);

impl Held {
    /// How many there are.
    pub fn count(&self) -> usize {
        self.0.len()
    }

    /// The kind of a printed line that answers a request.
    pub fn kind(&mut self, request: &Option<(u16, Vec<u8>)>, printed: &str) -> String {
        let Some((cluster, payload)) = request else {
            return printed.to_string();
        };
        let Some((_, reply)) = printed.split_once(' ') else {
            return refused(*cluster, payload, printed);
        };
        let status = reply.get(2..4).unwrap_or("no status");
        match (cluster, status) {
            (0x0000 | 0x0001, "00") if reply.len() == 24 => "00 single".to_string(),
            (0x0000 | 0x0001, "00") => "00 extended".to_string(),
            (0x0006, "00") => format!("00 of {}", reply.len().saturating_sub(10) / 2),
            (0x0021, "00") => self.bound(payload).to_string(),
            (0x0022, "00") => self.unbound(payload),
            _ => status.to_string(),
        }
    }

    /// A bind of SUCCESS: it adds an entry, or that is held.
    fn bound(&mut self, payload: &[u8]) -> &'static str {
        let entry = entry(payload);
        match (self.0.contains(&entry), self.0.len()) {
            (true, LIMIT) => "00 held, full",
            (true, _) => "00 held",
            _ => {
                self.0.push(entry);
                "00 added"
            }
        }
    }

    /// An unbind of SUCCESS.
    fn unbound(&mut self, payload: &[u8]) -> String {
        let entry = entry(payload);
        let count = self.0.len();
        self.0.retain(|held| *held != entry);
        match count - self.0.len() {
            1 => "00".to_string(),
            _ => "00 of an absent entry".to_string(),
        }
    }
}

/// What makes an entry in a bind request: source endpoint, cluster, mode, and the destination of that mode.
fn entry(payload: &[u8]) -> Vec<u8> {
    let end = if payload.get(12) == Some(&1) { 15 } else { 22 };
    payload.get(9..end).unwrap_or_default().to_vec()
}

/// A line without a reply: a refusal, for its mode where the bind request has another one, or leave.
fn refused(cluster: u16, payload: &[u8], printed: &str) -> String {
    let binds = [0x0021, 0x0022].contains(&cluster);
    match (printed, payload.get(12)) {
        ("R3", Some(0 | 2 | 4..)) if binds => "R3 mode".to_string(),
        _ => printed.to_string(),
    }
}
