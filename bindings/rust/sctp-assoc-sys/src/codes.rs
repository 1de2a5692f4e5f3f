use crate::sctp_assoc_code;

/// It is done.
pub const SCTP_ASSOC_DONE: sctp_assoc_code = 0;
/// The slot is empty. Nothing changed.
pub const SCTP_ASSOC_EMPTY_SLOT: sctp_assoc_code = 1;
/// Memory was refused. What that leaves the header says.
pub const SCTP_ASSOC_NO_MEMORY: sctp_assoc_code = 2;
/// There is none.
pub const SCTP_ASSOC_NOTHING: sctp_assoc_code = 3;
/// The buffer is too short. What is next stays.
pub const SCTP_ASSOC_NO_ROOM: sctp_assoc_code = 4;
/// The greatest payload of a DATA chunk is not in 1 to 65,519.
pub const SCTP_ASSOC_BAD_PAYLOAD_SIZE: sctp_assoc_code = 6;
/// The initial TSN is 0.
pub const SCTP_ASSOC_BAD_INITIAL_TSN: sctp_assoc_code = 7;
/// A token has a tag 0, a number of streams 0 or a window below 1500.
pub const SCTP_ASSOC_BAD_TOKEN: sctp_assoc_code = 8;
/// An earlier call found no memory in its middle, and the association is over.
pub const SCTP_ASSOC_FAILED: sctp_assoc_code = 10;
/// This side or the peer opened the stream already.
pub const SCTP_ASSOC_STREAM_EXISTS: sctp_assoc_code = 11;
/// A reset of the stream is open or failed, or its rest is to be read.
pub const SCTP_ASSOC_RESET_PENDING: sctp_assoc_code = 12;
/// 2^64 streams were opened, and none can be any more.
pub const SCTP_ASSOC_NO_STREAM_LEFT: sctp_assoc_code = 13;
/// There is no such stream.
pub const SCTP_ASSOC_NO_STREAM: sctp_assoc_code = 14;
/// A shutdown begins in Established alone (RFC 4960 section 9.2).
pub const SCTP_ASSOC_SHUTDOWN_NOT_ESTABLISHED: sctp_assoc_code = 15;
/// Messages are written in Established alone (RFC 4960 section 4).
pub const SCTP_ASSOC_NOT_ESTABLISHED: sctp_assoc_code = 16;
/// The reset of a stream is asked for in Established alone.
pub const SCTP_ASSOC_CANNOT_RESET: sctp_assoc_code = 17;
/// This half of the stream is closed.
pub const SCTP_ASSOC_STREAM_CLOSED: sctp_assoc_code = 26;
/// The message is longer than the limit, or the reason of an ABORT longer than 65,527 bytes.
pub const SCTP_ASSOC_MESSAGE_TOO_LONG: sctp_assoc_code = 27;
/// A message has one byte at least.
pub const SCTP_ASSOC_EMPTY_MESSAGE: sctp_assoc_code = 28;
/// The system gives no random bytes.
pub const SCTP_ASSOC_NO_RANDOM: sctp_assoc_code = 60;
/// The bytes are no INIT chunk, or end within a parameter of it.
pub const SCTP_ASSOC_BAD_INIT: sctp_assoc_code = 61;
/// A retransmission timeout is 0.
pub const SCTP_ASSOC_BAD_TIMEOUT: sctp_assoc_code = 62;
/// The profile is neither of the two that there are.
pub const SCTP_ASSOC_BAD_PROFILE: sctp_assoc_code = 63;
/// A port is 0.
pub const SCTP_ASSOC_BAD_PORT: sctp_assoc_code = 64;
/// A number of streams is 0.
pub const SCTP_ASSOC_BAD_STREAMS: sctp_assoc_code = 65;
/// The receive buffer is below 1500 bytes.
pub const SCTP_ASSOC_BAD_WINDOW: sctp_assoc_code = 66;
/// The verification tag is 0.
pub const SCTP_ASSOC_BAD_TAG: sctp_assoc_code = 67;
/// The payload protocol identifier has no name.
pub const SCTP_ASSOC_BAD_PAYLOAD_TYPE: sctp_assoc_code = 68;
/// The reliability has no name.
pub const SCTP_ASSOC_BAD_RELIABILITY: sctp_assoc_code = 69;

/// No limit, in `max_init_retransmits` and `max_data_retransmits`.
pub const SCTP_ASSOC_NO_LIMIT: usize = usize::MAX;
/// The rules that the RFCs ask for or leave open, where docs/CONFORMANCE.md has two.
pub const SCTP_ASSOC_PROFILE_RFC: u32 = 0;
/// The rules of the crate `sctp-proto` 0.10.8.
pub const SCTP_ASSOC_PROFILE_PORT: u32 = 1;
/// No INIT chunk that is written of a token is longer, in bytes.
pub const SCTP_ASSOC_MAX_INIT: usize = 28;
/// No datagram is longer, in bytes.
pub const SCTP_ASSOC_MAX_DATAGRAM: usize = 65548;

/// The datagram's tag is accepted, and it went to the association.
pub const SCTP_ASSOC_TAKEN: u32 = 0;
/// It is no SCTP packet, or its checksum is wrong. Nothing changed.
pub const SCTP_ASSOC_NO_PACKET: u32 = 1;
/// Its verification tag is one that RFC 4960 section 8.5 refuses. Nothing changed.
pub const SCTP_ASSOC_OTHER_TAG: u32 = 2;
/// It is an INIT after the handshake, with the peer's initiate tag or too short to have one. Nothing changed.
pub const SCTP_ASSOC_REPEATED_INIT: u32 = 3;
/// It is an INIT after the handshake with another initiate tag. Nothing changed.
pub const SCTP_ASSOC_OTHER_INIT: u32 = 4;

/// Established: messages can be written from now on.
pub const SCTP_ASSOC_EVENT_CONNECTED: u32 = 1;
/// INIT or COOKIE ECHO went out too often; `reason` says which.
pub const SCTP_ASSOC_EVENT_HANDSHAKE_FAILED: u32 = 2;
/// The association was closed; `reason`.
pub const SCTP_ASSOC_EVENT_LOST: u32 = 3;
/// A DATA chunk was taken in.
pub const SCTP_ASSOC_EVENT_DATAGRAM_RECEIVED: u32 = 4;
/// `stream` ended; `counters` are its last ones.
pub const SCTP_ASSOC_EVENT_STREAM_ENDED: u32 = 5;
/// The peer opened `stream`, by a message, or by the rules of the RFCs also by an ordered one that it gave up.
pub const SCTP_ASSOC_EVENT_OPENED: u32 = 6;
/// Messages of `stream` can be read.
pub const SCTP_ASSOC_EVENT_READABLE: u32 = 7;
/// The buffered amount of `stream` fell to its low mark or below.
pub const SCTP_ASSOC_EVENT_BUFFERED_LOW: u32 = 8;
/// A write took it to the high mark or above.
pub const SCTP_ASSOC_EVENT_BUFFERED_HIGH: u32 = 9;
/// The peer ended its half of `stream`, and all before that was read.
pub const SCTP_ASSOC_EVENT_FINISHED: u32 = 10;
/// Both halves of `stream` are reset: it can be opened anew.
pub const SCTP_ASSOC_EVENT_RESET_COMPLETE: u32 = 11;
/// The own half of `stream` was not reset, or the peer did not answer so far; `reason`.
pub const SCTP_ASSOC_EVENT_RESET_FAILED: u32 = 12;
/// An event that has no name here; none of these is told so far.
pub const SCTP_ASSOC_EVENT_OTHER: u32 = 13;

/// The kind of event has no reason.
pub const SCTP_ASSOC_REASON_NONE: u32 = 0;
/// INIT was not answered.
pub const SCTP_ASSOC_REASON_NO_INIT_ACK: u32 = 1;
/// COOKIE ECHO was not answered.
pub const SCTP_ASSOC_REASON_NO_COOKIE_ACK: u32 = 2;
/// The end of a shutdown, a close, an ABORT of either side or another fault of the peer.
pub const SCTP_ASSOC_REASON_CLOSED: u32 = 3;
/// The receive buffer is full of what can never be read.
pub const SCTP_ASSOC_REASON_BUFFER_EXHAUSTED: u32 = 4;
/// Another reason; none of these is told so far.
pub const SCTP_ASSOC_REASON_OTHER: u32 = 5;
/// The peer denied the reset of a stream (RFC 6525 section 4.4).
pub const SCTP_ASSOC_REASON_RESET_DENIED: u32 = 6;
/// The peer reported an error for the reset of a stream, or did not answer.
pub const SCTP_ASSOC_REASON_RESET_FAILED: u32 = 7;

/// Of a watch: the association has not ended.
pub const SCTP_ASSOC_END_NONE: u32 = 0;
/// [`sctp_assoc_watched_close`](crate::sctp_assoc_watched_close) closed it.
pub const SCTP_ASSOC_END_CLOSED: u32 = 1;
/// [`sctp_assoc_watched_abort`](crate::sctp_assoc_watched_abort) closed it.
pub const SCTP_ASSOC_END_ABORTED: u32 = 2;
/// A shutdown of either side went to its end.
pub const SCTP_ASSOC_END_SHUT_DOWN: u32 = 3;
/// An ABORT of the peer.
pub const SCTP_ASSOC_END_ABORT_CAME: u32 = 4;
/// Another fault of the peer.
pub const SCTP_ASSOC_END_FAULT: u32 = 5;
/// The receive buffer is full of what can never be read.
pub const SCTP_ASSOC_END_BUFFER_EXHAUSTED: u32 = 6;
/// The peer is silent: DATA, or the end of a shutdown, is not answered.
pub const SCTP_ASSOC_END_SILENT: u32 = 7;

/// None of the payload protocol identifiers with a name (RFC 8831 section 8).
pub const SCTP_ASSOC_PPID_UNKNOWN: u32 = 0;
/// The protocol that opens data channels (RFC 8832).
pub const SCTP_ASSOC_PPID_DCEP: u32 = 50;
/// A text.
pub const SCTP_ASSOC_PPID_STRING: u32 = 51;
/// Bytes.
pub const SCTP_ASSOC_PPID_BINARY: u32 = 53;
/// The empty text.
pub const SCTP_ASSOC_PPID_STRING_EMPTY: u32 = 56;
/// No bytes.
pub const SCTP_ASSOC_PPID_BINARY_EMPTY: u32 = 57;
/// Of [`sctp_assoc_write`](crate::sctp_assoc_write) alone: that which the stream was opened with.
pub const SCTP_ASSOC_PPID_OF_STREAM: u32 = u32::MAX;

/// A message is sent until it is acknowledged.
pub const SCTP_ASSOC_RELIABLE: u32 = 0;
/// It is sent again so many times (RFC 3758 section 4.1).
pub const SCTP_ASSOC_REXMIT: u32 = 1;
/// It is sent for so many ms from the first poll for datagrams after its write.
pub const SCTP_ASSOC_TIMED: u32 = 2;
