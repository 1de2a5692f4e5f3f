use sctp_assoc_sys as sys;
use std::time::Duration;

/// What a message carries: its payload protocol identifier (RFC 8831 section 8).
#[derive(Clone, Copy, Debug, Default, PartialEq, Eq)]
#[non_exhaustive]
pub enum PayloadType {
    /// None of the others.
    #[default]
    Unknown,
    /// The protocol that opens data channels (RFC 8832).
    Dcep,
    /// A text.
    String,
    /// Bytes.
    Binary,
    /// The empty text, whose message has one byte that says nothing.
    StringEmpty,
    /// No bytes, whose message has one byte that says nothing.
    BinaryEmpty,
}

impl PayloadType {
    /// Its number in a DATA chunk.
    pub fn number(self) -> u32 {
        match self {
            PayloadType::Unknown => sys::SCTP_ASSOC_PPID_UNKNOWN,
            PayloadType::Dcep => sys::SCTP_ASSOC_PPID_DCEP,
            PayloadType::String => sys::SCTP_ASSOC_PPID_STRING,
            PayloadType::Binary => sys::SCTP_ASSOC_PPID_BINARY,
            PayloadType::StringEmpty => sys::SCTP_ASSOC_PPID_STRING_EMPTY,
            PayloadType::BinaryEmpty => sys::SCTP_ASSOC_PPID_BINARY_EMPTY,
        }
    }

    pub(crate) fn of(number: u32) -> PayloadType {
        match number {
            sys::SCTP_ASSOC_PPID_DCEP => PayloadType::Dcep,
            sys::SCTP_ASSOC_PPID_STRING => PayloadType::String,
            sys::SCTP_ASSOC_PPID_BINARY => PayloadType::Binary,
            sys::SCTP_ASSOC_PPID_STRING_EMPTY => PayloadType::StringEmpty,
            sys::SCTP_ASSOC_PPID_BINARY_EMPTY => PayloadType::BinaryEmpty,
            _ => PayloadType::Unknown,
        }
    }
}

/// How long a message is sent again (RFC 3758 section 4.1).
#[derive(Clone, Copy, Debug, Default, PartialEq, Eq)]
#[non_exhaustive]
pub enum Reliability {
    /// Until it is acknowledged.
    #[default]
    Reliable,
    /// So many times; at 0 it goes out once.
    Retransmissions(u32),
    /// So long after the first [`poll_transmit`](crate::Association::poll_transmit) after its write; whole
    /// milliseconds count, up to 2^32 - 1. At 0 it never goes out.
    Lifetime(Duration),
}

impl Reliability {
    pub(crate) fn raw(self) -> (u32, u32) {
        match self {
            Reliability::Reliable => (sys::SCTP_ASSOC_RELIABLE, 0),
            Reliability::Retransmissions(times) => (sys::SCTP_ASSOC_REXMIT, times),
            Reliability::Lifetime(time) => (sys::SCTP_ASSOC_TIMED, u32::try_from(time.as_millis()).unwrap_or(u32::MAX)),
        }
    }

    #[cfg(feature = "channels")]
    pub(crate) fn of(kind: u32, value: u32) -> Reliability {
        match kind {
            sys::SCTP_ASSOC_REXMIT => Reliability::Retransmissions(value),
            sys::SCTP_ASSOC_TIMED => Reliability::Lifetime(Duration::from_millis(value.into())),
            _ => Reliability::Reliable,
        }
    }
}
