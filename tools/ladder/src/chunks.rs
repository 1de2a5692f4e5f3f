//! The chunks of a datagram in words, by RFC 4960 section 3, RFC 3758 section 3.2 and RFC 6525 section 4.
use crate::story::bytes_in_words;

/// At most so many entries of a list are shown.
const SHOWN: usize = 4;

/// Each chunk of an SCTP packet in words.
pub fn chunks_in_words(datagram: &[u8]) -> Vec<String> {
    let chunks = datagram.get(12..).unwrap_or_default();
    Items { rest: chunks }.map(|item| chunk_in_words(&item)).collect()
}

/// A chunk, or a parameter: both have two bytes, their length and a value, and end at a multiple of 4.
struct Item<'a> {
    /// Of a chunk its type and flags, of a parameter its type.
    head: [u8; 2],
    value: &'a [u8],
}

/// The items that stand one after another, up to the first one that is cut short.
struct Items<'a> {
    rest: &'a [u8],
}

impl<'a> Iterator for Items<'a> {
    type Item = Item<'a>;

    fn next(&mut self) -> Option<Item<'a>> {
        let head = self.rest.get(..2)?;
        let length = usize::from(u16_at(self.rest, 2)?);
        let value = self.rest.get(4..length)?;
        self.rest = self.rest.get(length.div_ceil(4) * 4..).unwrap_or_default();
        Some(Item { head: [head[0], head[1]], value })
    }
}

fn u16_at(bytes: &[u8], at: usize) -> Option<u16> {
    let two = bytes.get(at..at + 2)?;
    Some(u16::from_be_bytes([two[0], two[1]]))
}

fn u32_at(bytes: &[u8], at: usize) -> Option<u32> {
    let four = bytes.get(at..at + 4)?;
    Some(u32::from_be_bytes([four[0], four[1], four[2], four[3]]))
}

/// The name of a chunk in the words of the RFCs.
fn name_of(kind: u8) -> Option<&'static str> {
    Some(match kind {
        0 => "DATA",
        1 => "INIT",
        2 => "INIT ACK",
        3 => "SACK",
        4 => "HEARTBEAT",
        5 => "HEARTBEAT ACK",
        6 => "ABORT",
        7 => "SHUTDOWN",
        8 => "SHUTDOWN ACK",
        9 => "ERROR",
        10 => "COOKIE ECHO",
        11 => "COOKIE ACK",
        14 => "SHUTDOWN COMPLETE",
        130 => "RE-CONFIG",
        192 => "FORWARD TSN",
        194 => "I-FORWARD-TSN",
        _ => return None,
    })
}

fn chunk_in_words(chunk: &Item<'_>) -> String {
    let [kind, flags] = chunk.head;
    let Some(name) = name_of(kind) else { return format!("chunk type {kind}") };
    let fields = match kind {
        0 => data_fields(flags, chunk.value),
        1 | 2 => init_fields(chunk.value),
        3 => sack_fields(chunk.value),
        6 | 9 => Some(Items { rest: chunk.value }.map(|cause| cause_in_words(&cause)).collect()),
        7 => u32_at(chunk.value, 0).map(|tsn| format!(" {tsn}")),
        130 => Some(reconfig_fields(chunk.value)),
        192 => forward_tsn_fields(chunk.value),
        _ => Some(String::new()),
    };
    format!("{name}{}", fields.unwrap_or_else(|| " cut short".to_string()))
}

fn data_fields(flags: u8, value: &[u8]) -> Option<String> {
    let (tsn, stream, ssn) = (u32_at(value, 0)?, u16_at(value, 4)?, u16_at(value, 6)?);
    let (is_unordered, is_first, is_last) = (flags & 4 != 0, flags & 2 != 0, flags & 1 != 0);
    let place = if is_unordered { format!("{stream} unordered") } else { format!("{stream}/{ssn}") };
    let piece = match (is_first, is_last) {
        (true, true) => "",
        (true, false) => " first piece",
        (false, false) => " middle piece",
        (false, true) => " last piece",
    };
    Some(format!(" {tsn} {place}{piece} {}", bytes_in_words(value.get(12..)?)))
}

fn init_fields(value: &[u8]) -> Option<String> {
    Some(format!(" tag {}, TSN {}", u32_at(value, 0)?, u32_at(value, 12)?))
}

/// The first entries of a list, and how many are left out.
fn listed(entries: impl ExactSizeIterator<Item = String>) -> String {
    let left = entries.len().saturating_sub(SHOWN);
    let mut words: Vec<String> = entries.take(SHOWN).collect();
    if left > 0 {
        words.push(format!("and {left} more"));
    }
    words.join(" ")
}

fn sack_fields(value: &[u8]) -> Option<String> {
    let (tsn, gaps, repeats) = (u32_at(value, 0)?, u16_at(value, 8)?, u16_at(value, 10)?);
    let blocks = value.get(12..12 + 4 * usize::from(gaps))?.chunks_exact(4);
    let mut words = format!(" {tsn}");
    if gaps > 0 {
        let block = |two: &[u8]| Some(format!("{}-{}", u16_at(two, 0)?, u16_at(two, 2)?));
        words += &format!(", gaps {}", listed(blocks.map(|two| block(two).unwrap_or_default())));
    }
    if repeats > 0 {
        words += &format!(", {repeats} duplicates");
    }
    Some(words)
}

fn cause_in_words(cause: &Item<'_>) -> String {
    format!(", cause {}", u16::from_be_bytes(cause.head))
}

fn forward_tsn_fields(value: &[u8]) -> Option<String> {
    let tsn = u32_at(value, 0)?;
    let entry = |four: &[u8]| Some(format!("{}/{}", u16_at(four, 0)?, u16_at(four, 2)?));
    let streams = listed(value[4..].chunks_exact(4).map(|four| entry(four).unwrap_or_default()));
    let separator = if streams.is_empty() { "" } else { ", " };
    Some(format!(" {tsn}{separator}{streams}"))
}

fn reconfig_fields(value: &[u8]) -> String {
    let params = Items { rest: value }.map(|param| {
        let fields = match u16::from_be_bytes(param.head) {
            13 => reset_request_fields(param.value),
            16 => response_fields(param.value),
            kind => Some(format!(" parameter {kind}")),
        };
        fields.unwrap_or_else(|| " cut short".to_string())
    });
    params.collect::<Vec<_>>().join(";")
}

fn reset_request_fields(value: &[u8]) -> Option<String> {
    let (number, last) = (u32_at(value, 0)?, u32_at(value, 8)?);
    let stream = |two: &[u8]| u16_at(two, 0).unwrap_or_default().to_string();
    let streams = listed(value.get(12..)?.chunks_exact(2).map(stream));
    Some(format!(" request {number}: reset {streams} after {last}"))
}

fn response_fields(value: &[u8]) -> Option<String> {
    let result = match u32_at(value, 4)? {
        0 => "nothing to do",
        1 => "performed",
        2 => "denied",
        3 => "wrong SSN",
        4 => "request already in progress",
        5 => "bad sequence number",
        6 => "in progress",
        _ => "unknown result",
    };
    Some(format!(" response {}: {result}", u32_at(value, 0)?))
}

#[cfg(test)]
mod tests {
    use super::*;

    fn words(hex: &str) -> Vec<String> {
        let byte = |at: usize| u8::from_str_radix(&hex[at..at + 2], 16).expect("hex");
        chunks_in_words(&(0..hex.len()).step_by(2).map(byte).collect::<Vec<u8>>())
    }

    /// Packets written out by hand after the RFCs; the sum of the common header does not matter here.
    #[test]
    fn chunks_have_the_words_of_the_rfcs() {
        let packets = [
            ("0100001400000009000200000001000100000007", vec!["INIT tag 9, TSN 7"]),
            ("0003001200000064000100000000003368690000", vec!["DATA 100 1/0 \"hi\""]),
            ("000600110000006400010002000000350a000000", vec!["DATA 100 1 unordered first piece 0x0a"]),
            ("0300001c000000640000ffff000200010002000200040005000000c8", vec!["SACK 100, gaps 2-2 4-5, 1 duplicates"]),
            ("0700000800000064", vec!["SHUTDOWN 100"]),
            ("c000000c000000650001000a", vec!["FORWARD TSN 101, 1/10"]),
            ("82000016000d0012000000640000006300000064000100000000", vec!["RE-CONFIG request 100: reset 1 after 100"]),
            ("820000100010000c0000006400000001", vec!["RE-CONFIG response 100: performed"]),
            ("0b0000040e010004", vec!["COOKIE ACK", "SHUTDOWN COMPLETE"]),
            ("06000008000c0004", vec!["ABORT, cause 12"]),
            ("00030012000000", vec![]),
        ];
        for (chunks, wanted) in packets {
            assert_eq!(words(&("00".repeat(12) + chunks)), wanted);
        }
    }
}
