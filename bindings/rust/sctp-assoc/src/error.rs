use sctp_assoc_sys as sys;
use std::fmt;

/// Why a call was refused. Unless the page of a call says otherwise, the call changed nothing.
#[derive(Clone, Copy, Debug, PartialEq, Eq)]
#[non_exhaustive]
pub enum Error {
    /// Memory was refused. What that leaves the page of the call says;
    /// [`is_failed`](crate::Association::is_failed) tells whether the association is over.
    NoMemory,
    /// The buffer is too short: what is next has so many bytes, and stays.
    NoRoom {
        /// The length of what is next, in bytes.
        needed: usize,
    },
    /// The greatest payload of a DATA chunk is not in 1 to 65,519.
    BadPayloadSize,
    /// The initial TSN is 0.
    BadInitialTsn,
    /// A token has a tag 0, a number of streams 0 or a window below 1500.
    BadToken,
    /// An earlier call found no memory in its middle, and the association is over.
    Failed,
    /// This side or the peer opened the stream already.
    StreamExists,
    /// A reset of the stream is open or failed, or its rest is to be read. Once its end was told
    /// ([`Event::ResetComplete`](crate::Event::ResetComplete)) it can be opened and written again. Where the peer reset
    /// one of which nothing ever came, nothing tells that: try again.
    ResetPending,
    /// 2^64 streams were opened, and none can be any more.
    NoStreamLeft,
    /// There is no such stream.
    NoStream,
    /// A shutdown begins while the association is established, and at no other time, so not after another one.
    ShutdownNotEstablished,
    /// Messages are written while the association is established, and at no other time.
    NotEstablished,
    /// The reset of a stream is asked for while the association is established, and at no other time.
    CannotReset,
    /// This half of the stream is closed.
    StreamClosed,
    /// The message is longer than `max_send_message_size`, or the reason of an abort longer than 65,527 bytes.
    MessageTooLong,
    /// The message has no byte.
    EmptyMessage,
    /// The system gives no random bytes.
    NoRandom,
    /// The bytes are no INIT chunk, or end within a parameter of it.
    BadInit,
    /// A retransmission timeout of the configuration is below one millisecond.
    BadTimeout,
    /// A port of the configuration is 0.
    BadPort,
    /// The configuration offers no inbound or no outbound streams.
    BadStreams,
    /// The receive buffer of the configuration is below 1500 bytes, a window that a peer refuses.
    BadWindow,
    /// The verification tag of an identity is 0.
    BadTag,
    /// The library answered a code that these bindings do not know.
    Unknown(u32),
}

impl Error {
    /// The error of a code that is not `SCTP_ASSOC_DONE`. `length` is what the call wrote for a length, if it has one.
    pub(crate) fn of(code: u32, length: usize) -> Error {
        match code {
            sys::SCTP_ASSOC_NO_MEMORY => Error::NoMemory,
            sys::SCTP_ASSOC_NO_ROOM => Error::NoRoom { needed: length },
            sys::SCTP_ASSOC_BAD_PAYLOAD_SIZE => Error::BadPayloadSize,
            sys::SCTP_ASSOC_BAD_INITIAL_TSN => Error::BadInitialTsn,
            sys::SCTP_ASSOC_BAD_TOKEN => Error::BadToken,
            sys::SCTP_ASSOC_FAILED => Error::Failed,
            sys::SCTP_ASSOC_STREAM_EXISTS => Error::StreamExists,
            sys::SCTP_ASSOC_RESET_PENDING => Error::ResetPending,
            sys::SCTP_ASSOC_NO_STREAM_LEFT => Error::NoStreamLeft,
            sys::SCTP_ASSOC_NO_STREAM => Error::NoStream,
            sys::SCTP_ASSOC_SHUTDOWN_NOT_ESTABLISHED => Error::ShutdownNotEstablished,
            sys::SCTP_ASSOC_NOT_ESTABLISHED => Error::NotEstablished,
            sys::SCTP_ASSOC_CANNOT_RESET => Error::CannotReset,
            sys::SCTP_ASSOC_STREAM_CLOSED => Error::StreamClosed,
            sys::SCTP_ASSOC_MESSAGE_TOO_LONG => Error::MessageTooLong,
            sys::SCTP_ASSOC_EMPTY_MESSAGE => Error::EmptyMessage,
            sys::SCTP_ASSOC_NO_RANDOM => Error::NoRandom,
            sys::SCTP_ASSOC_BAD_INIT => Error::BadInit,
            sys::SCTP_ASSOC_BAD_TIMEOUT => Error::BadTimeout,
            sys::SCTP_ASSOC_BAD_PORT => Error::BadPort,
            sys::SCTP_ASSOC_BAD_STREAMS => Error::BadStreams,
            sys::SCTP_ASSOC_BAD_WINDOW => Error::BadWindow,
            sys::SCTP_ASSOC_BAD_TAG => Error::BadTag,
            other => Error::Unknown(other),
        }
    }
}

impl fmt::Display for Error {
    fn fmt(&self, f: &mut fmt::Formatter<'_>) -> fmt::Result {
        match self {
            Error::NoMemory => f.write_str("memory was refused"),
            Error::NoRoom { needed } => write!(f, "the buffer is too short: {needed} bytes are needed"),
            Error::BadPayloadSize => f.write_str("the payload size is not in 1 to 65519"),
            Error::BadInitialTsn => f.write_str("the initial TSN is 0"),
            Error::BadToken => f.write_str("a token is refused"),
            Error::Failed => f.write_str("an earlier call failed the association"),
            Error::StreamExists => f.write_str("the stream exists already"),
            Error::ResetPending => f.write_str("a reset of the stream is open"),
            Error::NoStreamLeft => f.write_str("no stream can be opened any more"),
            Error::NoStream => f.write_str("there is no such stream"),
            Error::ShutdownNotEstablished => f.write_str("no shutdown begins outside an established association"),
            Error::NotEstablished => f.write_str("the association is not established"),
            Error::CannotReset => f.write_str("no stream is reset outside an established association"),
            Error::StreamClosed => f.write_str("this half of the stream is closed"),
            Error::MessageTooLong => f.write_str("the message is too long"),
            Error::EmptyMessage => f.write_str("the message is empty"),
            Error::NoRandom => f.write_str("the system gives no random bytes"),
            Error::BadInit => f.write_str("the bytes are no INIT chunk"),
            Error::BadTimeout => f.write_str("a retransmission timeout is 0"),
            Error::BadPort => f.write_str("a port is 0"),
            Error::BadStreams => f.write_str("no streams are offered"),
            Error::BadWindow => f.write_str("the receive buffer is below 1500 bytes"),
            Error::BadTag => f.write_str("the verification tag is 0"),
            Error::Unknown(code) => write!(f, "the library answered the unknown code {code}"),
        }
    }
}

impl std::error::Error for Error {}

/// What a code means if the call has an answer besides. `length` as in [`Error::of`].
pub(crate) fn done_or_nothing(code: u32, length: usize) -> Result<bool, Error> {
    match code {
        sys::SCTP_ASSOC_DONE => Ok(true),
        sys::SCTP_ASSOC_NOTHING => Ok(false),
        refused => Err(Error::of(refused, length)),
    }
}

/// What a code means if the call has no answer besides.
pub(crate) fn done(code: u32) -> Result<(), Error> {
    match code {
        sys::SCTP_ASSOC_DONE => Ok(()),
        refused => Err(Error::of(refused, 0)),
    }
}
