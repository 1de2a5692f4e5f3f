//! Replies in the words of docs/SESSIONS.md.
use sctp_assoc::{Error, Event, PayloadType, Reason};

/// The reply to a delivery of a packet that the other side never gave out.
pub const NO_PACKET: &str = "no such packet";

/// A refusal, by its number.
pub fn refusal(error: Error) -> String {
    let number = match error {
        Error::BadPayloadSize => 1,
        Error::BadInitialTsn => 2,
        Error::BadToken => 3,
        Error::NoMemory => 4,
        Error::Failed => 5,
        Error::StreamExists => 6,
        Error::ResetPending => 7,
        Error::NoStreamLeft => 8,
        Error::NoStream => 9,
        Error::ShutdownNotEstablished => 10,
        Error::NotEstablished => 11,
        Error::CannotReset => 12,
        Error::StreamClosed => 21,
        Error::MessageTooLong => 22,
        Error::EmptyMessage => 23,
        other => return format!("refused: {other}"),
    };
    format!("refused {number}")
}

/// `ok`, or the refusal.
pub fn done(answer: Result<(), Error>) -> String {
    value(answer.map(|()| "ok".to_string()))
}

/// The words of the answer, or the refusal.
pub fn value(answer: Result<String, Error>) -> String {
    answer.unwrap_or_else(refusal)
}

/// The words of the answer, `none` without one, or the refusal.
pub fn optional(answer: Result<Option<String>, Error>) -> String {
    value(answer.map(|words| words.unwrap_or_else(|| "none".to_string())))
}

/// A message that was read.
pub fn message(payload_type: PayloadType, bytes: &[u8]) -> String {
    let hex: String = bytes.iter().map(|byte| format!("{byte:02x}")).collect();
    let hex = if hex.is_empty() { "-" } else { &hex };
    format!("message {} {hex}", payload_type.number())
}

/// An event. Of the last counters of a stream the bindings do not tell the generation.
pub fn event(event: Event) -> String {
    match event {
        Event::Connected => "connected".to_string(),
        Event::HandshakeFailed { .. } => "handshake-failed".to_string(),
        Event::Lost { reason: Reason::Closed } => "lost closed".to_string(),
        Event::Lost { reason: Reason::BufferExhausted } => "lost exhausted".to_string(),
        Event::Lost { .. } => "lost other".to_string(),
        Event::DatagramReceived => "datagram".to_string(),
        Event::StreamEnded { .. } => "final".to_string(),
        Event::Opened { stream } => format!("opened {stream}"),
        Event::Readable { stream } => format!("readable {stream}"),
        Event::BufferedAmountLow { stream } => format!("low {stream}"),
        Event::BufferedAmountHigh { stream } => format!("high {stream}"),
        Event::Finished { stream } => format!("finished {stream}"),
        Event::ResetComplete { stream } => format!("reset-complete {stream}"),
        Event::ResetFailed { stream, .. } => format!("reset-failed {stream}"),
        other => format!("{other:?}"),
    }
}

/// How many datagrams a reply to `send` speaks of.
pub fn count_of_packets(reply: &str) -> usize {
    let mut words = reply.split(' ');
    let is_of_packets = words.next() == Some("packets");
    words.nth(1).filter(|_| is_of_packets).and_then(|count| count.parse().ok()).unwrap_or(0)
}

/// Whether a reply is the one that was expected, as far as the bindings tell: not which generation of a stream ended,
/// and not whether a side is in its handshake.
pub fn is_expected(reply: &str, expected: &str) -> bool {
    let known = |text: &str| match text.split_once(' ') {
        Some(("final", _)) => "final".to_string(),
        Some(("0" | "1", rest)) if rest.len() == 7 => rest.to_string(),
        _ => text.to_string(),
    };
    known(reply) == known(expected)
}
