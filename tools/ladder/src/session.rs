//! The lines of a session, as docs/SESSIONS.md describes them.
use sctp_assoc::{PayloadType, Profile, Reliability};
use std::time::Duration;

/// One of the two associations.
#[derive(Clone, Copy, Debug, PartialEq, Eq)]
pub enum Side {
    A,
    B,
}

impl Side {
    pub fn other(self) -> Side {
        match self {
            Side::A => Side::B,
            Side::B => Side::A,
        }
    }

    fn named(name: &str) -> Option<Side> {
        match name {
            "A" => Some(Side::A),
            "B" => Some(Side::B),
            _ => None,
        }
    }
}

/// How the two associations come about, by the first line, or the second one where the first names a profile.
#[derive(Clone, Copy, Debug)]
pub struct Beginning {
    /// The rules that both sides keep.
    pub profile: Profile,
    /// By tokens; else a client and a server, before their handshake.
    pub is_joined: bool,
    pub max_payload_size: u32,
    pub first_tsns: [u32; 2],
}

/// Any other line, without its side.
#[derive(Clone, Debug)]
pub enum Step {
    Open { id: u16, payload_type: PayloadType },
    Accept,
    Ids,
    Write { id: u16, payload_type: Option<PayloadType>, bytes: Vec<u8> },
    Policy { id: u16, unordered: bool, reliability: Reliability },
    Read { id: u16 },
    Buffered { id: u16 },
    Finish { id: u16 },
    Stop { id: u16 },
    Send { now: u64 },
    Deliver { number: usize, now: u64 },
    Time { now: u64 },
    Deadline,
    Event,
    Drained,
    Rtt,
    State,
    Shutdown,
    Close,
}

/// Reads a line that names a profile; None if it is another.
pub fn profile_of(line: &str) -> Option<Profile> {
    match line {
        "profile port" => Some(Profile::Port),
        "profile rfc" => Some(Profile::Rfc),
        _ => None,
    }
}

/// Reads the line that makes two associations of this profile; None if it is another.
pub fn beginning_of(line: &str, profile: Profile) -> Option<Beginning> {
    let fields: Vec<&str> = line.split(' ').collect();
    let [name @ ("snap" | "client"), size, a, b] = fields[..] else { return None };
    Some(Beginning {
        profile,
        is_joined: name == "snap",
        max_payload_size: size.parse().ok()?,
        first_tsns: [a.parse().ok()?, b.parse().ok()?],
    })
}

/// The line with its bytes in hex, if it writes a text: `write A 1 "hi"` is `write A 1 6869`.
fn in_hex(line: &str) -> String {
    let text = line.split_once(" \"").and_then(|(step, text)| Some((step, text.strip_suffix('"')?)));
    match text {
        Some((step, "")) if step.starts_with("write") => format!("{step} -"),
        Some((step, text)) if step.starts_with("write") => {
            text.bytes().fold(format!("{step} "), |line, byte| line + &format!("{byte:02x}"))
        }
        _ => line.to_string(),
    }
}

/// Reads a line behind that; None if it is no step.
pub fn step_of(line: &str) -> Option<(Side, Step)> {
    let line = in_hex(line);
    let mut fields = line.split(' ');
    let (name, side) = (fields.next()?, Side::named(fields.next()?)?);
    let rest: Vec<&str> = fields.collect();
    let step = match (name, &rest[..]) {
        ("open", [id, number]) => Step::Open { id: id.parse().ok()?, payload_type: payload_type_of(number)? },
        ("write", [id, bytes]) => Step::Write { id: id.parse().ok()?, payload_type: None, bytes: bytes_of(bytes)? },
        ("writeas", [id, number, bytes]) => {
            let payload_type = Some(payload_type_of(number)?);
            Step::Write { id: id.parse().ok()?, payload_type, bytes: bytes_of(bytes)? }
        }
        ("policy", [id, order, kind, value]) => Step::Policy {
            id: id.parse().ok()?,
            unordered: is_unordered(order)?,
            reliability: reliability_of(kind, value.parse().ok()?)?,
        },
        ("deliver", [number, now]) => Step::Deliver { number: number.parse().ok()?, now: now.parse().ok()? },
        (_, [number]) => numbered_step(name, number)?,
        (_, []) => plain_step(name)?,
        _ => return None,
    };
    Some((side, step))
}

fn numbered_step(name: &str, number: &str) -> Option<Step> {
    Some(match name {
        "send" => Step::Send { now: number.parse().ok()? },
        "time" => Step::Time { now: number.parse().ok()? },
        "read" => Step::Read { id: number.parse().ok()? },
        "buffered" => Step::Buffered { id: number.parse().ok()? },
        "finish" => Step::Finish { id: number.parse().ok()? },
        "stop" => Step::Stop { id: number.parse().ok()? },
        _ => return None,
    })
}

fn plain_step(name: &str) -> Option<Step> {
    Some(match name {
        "accept" => Step::Accept,
        "ids" => Step::Ids,
        "deadline" => Step::Deadline,
        "event" => Step::Event,
        "drained" => Step::Drained,
        "rtt" => Step::Rtt,
        "state" => Step::State,
        "shutdown" => Step::Shutdown,
        "close" => Step::Close,
        _ => return None,
    })
}

fn payload_type_of(number: &str) -> Option<PayloadType> {
    Some(match number {
        "50" => PayloadType::Dcep,
        "51" => PayloadType::String,
        "53" => PayloadType::Binary,
        "56" => PayloadType::StringEmpty,
        "57" => PayloadType::BinaryEmpty,
        _ => return None,
    })
}

fn is_unordered(order: &str) -> Option<bool> {
    match order {
        "o" => Some(false),
        "u" => Some(true),
        _ => None,
    }
}

fn reliability_of(kind: &str, value: u32) -> Option<Reliability> {
    match kind {
        "reliable" => Some(Reliability::Reliable),
        "rexmit" => Some(Reliability::Retransmissions(value)),
        "timed" => Some(Reliability::Lifetime(Duration::from_millis(value.into()))),
        _ => None,
    }
}

/// Bytes in hex; `-` is none.
fn bytes_of(text: &str) -> Option<Vec<u8>> {
    if text == "-" {
        return Some(Vec::new());
    }
    let digits: Vec<u32> = text.chars().map(|digit| digit.to_digit(16)).collect::<Option<_>>()?;
    let is_whole = !digits.is_empty() && digits.len() % 2 == 0;
    is_whole.then(|| digits.chunks(2).map(|pair| (16 * pair[0] + pair[1]) as u8).collect())
}

#[cfg(test)]
mod tests {
    use super::*;

    #[test]
    fn a_text_stands_for_its_bytes() {
        let bytes = |line| match step_of(line) {
            Some((Side::A, Step::Write { id: 1, bytes, .. })) => Some(bytes),
            _ => None,
        };
        assert_eq!(bytes("write A 1 6869"), Some(b"hi".to_vec()));
        assert_eq!(bytes("write A 1 \"hi\""), Some(b"hi".to_vec()));
        assert_eq!(bytes("writeas A 1 51 \"say \"hi\" twice\""), Some(b"say \"hi\" twice".to_vec()));
        assert_eq!(bytes("write A 1 \"\u{e9}\""), Some(vec![0xc3, 0xa9]));
        assert_eq!(bytes("write A 1 \"\""), Some(Vec::new()));
        assert_eq!(bytes("write A 1 \"hi"), None);
        assert!(step_of("read A \"1\"").is_none());
    }
}
