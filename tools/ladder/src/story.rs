//! What happens in a session, in its order.
use crate::session::Side;

/// One thing that happened.
#[derive(Debug)]
pub enum Happening {
    /// The moment, in ms, of all that follows.
    Moment(u64),
    /// A datagram went out: its number among those of this side, and its bytes.
    Sent { side: Side, number: usize, datagram: Vec<u8> },
    /// A datagram of the other side came to this one, which may drop it, and why.
    Came { side: Side, number: usize, dropped: Option<&'static str> },
    /// A datagram of the other side was to come to this one, which has sent none with this number.
    Missing { side: Side, number: usize },
    /// A timer expired.
    Expired { side: Side, timer: &'static str },
    /// The application asked for something.
    Asked { side: Side, words: String },
    /// The application was told something.
    Told { side: Side, words: String },
}

/// The bytes of a message in words: as text if they are that, and else in hex. Long ones are cut.
pub fn bytes_in_words(bytes: &[u8]) -> String {
    let is_text = bytes.iter().all(|byte| matches!(byte, b' '..=b'~'));
    let shown = if is_text { 16 } else { 8 };
    let cut = &bytes[..bytes.len().min(shown)];
    let mut words = if is_text {
        format!("\"{}", String::from_utf8_lossy(cut))
    } else {
        cut.iter().fold("0x".to_string(), |words, byte| words + &format!("{byte:02x}"))
    };
    words += if bytes.len() > shown { ".." } else { "" };
    words += if is_text { "\"" } else { "" };
    if bytes.len() > shown {
        words += &format!(" {} bytes", bytes.len());
    }
    words
}
