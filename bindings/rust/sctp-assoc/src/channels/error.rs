use sctp_assoc_sys as sys;
use std::fmt;

/// Why a call of channels was refused. Unless the page of a call says otherwise, the call changed nothing.
#[derive(Clone, Copy, Debug, PartialEq, Eq)]
#[non_exhaustive]
pub enum Error {
    /// The association refused it.
    Association(crate::Error),
    /// Memory was refused. What that leaves the page of the call says.
    NoMemory,
    /// The buffer is too short: what is next has so many bytes, and stays.
    NoRoom {
        /// The length of what is next, in bytes.
        needed: usize,
    },
    /// The label or the protocol is longer than 65,535 bytes.
    LabelTooLong,
    /// Each identifier of this side has a channel.
    NoIdentifierLeft,
    /// The negotiated identifier has a channel, or is 65,535.
    IdentifierTaken,
    /// The negotiated identifier lies past the streams on which this side may send.
    IdentifierPastStreams,
    /// There is no such channel.
    NoChannel,
    /// The channel's OPEN was not written yet, or it ends.
    NotOpen,
    /// The association was lost.
    Lost,
    /// The peer's label or protocol is no UTF-8, which RFC 8832 section 5.1 asks for.
    NotUtf8,
}

impl Error {
    /// The error of a code that is not `SCTP_ASSOC_DONE`. `length` is what the call wrote for a length, if it has one.
    fn of(code: u32, length: usize) -> Error {
        match code {
            sys::SCTP_ASSOC_NO_MEMORY => Error::NoMemory,
            sys::SCTP_ASSOC_NO_ROOM => Error::NoRoom { needed: length },
            sys::SCTP_CHANNELS_LABEL_TOO_LONG => Error::LabelTooLong,
            sys::SCTP_CHANNELS_NO_IDENTIFIER_LEFT => Error::NoIdentifierLeft,
            sys::SCTP_CHANNELS_IDENTIFIER_TAKEN => Error::IdentifierTaken,
            sys::SCTP_CHANNELS_NO_CHANNEL => Error::NoChannel,
            sys::SCTP_CHANNELS_NOT_OPEN => Error::NotOpen,
            sys::SCTP_CHANNELS_IDENTIFIER_PAST_STREAMS => Error::IdentifierPastStreams,
            sys::SCTP_CHANNELS_LOST => Error::Lost,
            other => Error::Association(crate::Error::of(other, length)),
        }
    }
}

impl From<crate::Error> for Error {
    /// What a call of the association was refused for.
    fn from(error: crate::Error) -> Error {
        match error {
            crate::Error::NoMemory => Error::NoMemory,
            crate::Error::NoRoom { needed } => Error::NoRoom { needed },
            other => Error::Association(other),
        }
    }
}

impl fmt::Display for Error {
    fn fmt(&self, f: &mut fmt::Formatter<'_>) -> fmt::Result {
        match self {
            Error::Association(error) => error.fmt(f),
            Error::NoMemory => crate::Error::NoMemory.fmt(f),
            Error::NoRoom { needed } => crate::Error::NoRoom { needed: *needed }.fmt(f),
            Error::LabelTooLong => f.write_str("the label or the protocol is longer than 65535 bytes"),
            Error::NoIdentifierLeft => f.write_str("each identifier of this side has a channel"),
            Error::IdentifierTaken => f.write_str("the identifier has a channel, or is 65535"),
            Error::NoChannel => f.write_str("there is no such channel"),
            Error::NotOpen => f.write_str("the channel is not open"),
            Error::IdentifierPastStreams => f.write_str("this side may not send on so many streams"),
            Error::Lost => f.write_str("the association was lost"),
            Error::NotUtf8 => f.write_str("the label or the protocol is no UTF-8"),
        }
    }
}

impl std::error::Error for Error {}

/// What a code means if the call has an answer besides. `length` is what it wrote for a length, if it has one.
pub(super) fn done_or_nothing(code: u32, length: usize) -> Result<bool, Error> {
    match code {
        sys::SCTP_ASSOC_DONE => Ok(true),
        sys::SCTP_ASSOC_NOTHING => Ok(false),
        refused => Err(Error::of(refused, length)),
    }
}

/// What a code means if the call has no answer besides.
pub(super) fn done(code: u32) -> Result<(), Error> {
    match code {
        sys::SCTP_ASSOC_DONE => Ok(()),
        refused => Err(Error::of(refused, 0)),
    }
}
