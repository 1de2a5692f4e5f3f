use crate::{sctp_assoc, sctp_assoc_code};
use core::ffi::{c_char, c_void};
use core::ptr;

/// The label or the protocol is longer than 65,535 bytes.
pub const SCTP_CHANNELS_LABEL_TOO_LONG: sctp_assoc_code = 40;
/// Each identifier of this side has a channel.
pub const SCTP_CHANNELS_NO_IDENTIFIER_LEFT: sctp_assoc_code = 41;
/// The negotiated identifier has a channel, or is 65,535.
pub const SCTP_CHANNELS_IDENTIFIER_TAKEN: sctp_assoc_code = 42;
/// There is no such channel.
pub const SCTP_CHANNELS_NO_CHANNEL: sctp_assoc_code = 43;
/// The channel's OPEN was not written yet, or it ends.
pub const SCTP_CHANNELS_NOT_OPEN: sctp_assoc_code = 44;
/// The negotiated identifier lies past the streams on which this side may send.
pub const SCTP_CHANNELS_IDENTIFIER_PAST_STREAMS: sctp_assoc_code = 45;
/// The association was lost.
pub const SCTP_CHANNELS_LOST: sctp_assoc_code = 46;
/// A message of another payload type was received.
pub const SCTP_CHANNELS_OTHER: sctp_assoc_code = 47;
/// The role is neither of the two that there are.
pub const SCTP_CHANNELS_BAD_ROLE: sctp_assoc_code = 70;

/// The client of the DTLS handshake, whose own channels have even identifiers (RFC 8832 section 6).
pub const SCTP_CHANNELS_CLIENT: u32 = 0;
/// The server of the DTLS handshake, whose own channels have odd identifiers.
pub const SCTP_CHANNELS_SERVER: u32 = 1;

/// The association is established.
pub const SCTP_CHANNELS_EVENT_CONNECTED: u32 = 1;
/// The peer opened the channel, and it is open.
pub const SCTP_CHANNELS_EVENT_ANNOUNCED: u32 = 2;
/// The channel of this side is open.
pub const SCTP_CHANNELS_EVENT_OPENED: u32 = 3;
/// Messages of the channel may have come: receive until there is none.
pub const SCTP_CHANNELS_EVENT_MESSAGE: u32 = 4;
/// The buffered amount of the channel fell to its low threshold or below.
pub const SCTP_CHANNELS_EVENT_BUFFERED_LOW: u32 = 5;
/// The channel ended, by either side, and all that came before was received.
pub const SCTP_CHANNELS_EVENT_CLOSED: u32 = 6;
/// The peer's stream began with something else than an OPEN, or this side's channel could not be begun.
pub const SCTP_CHANNELS_EVENT_FAILED: u32 = 7;
/// The association ended, and all channels are gone.
pub const SCTP_CHANNELS_EVENT_LOST: u32 = 8;
/// The handshake failed, and all channels are gone.
pub const SCTP_CHANNELS_EVENT_HANDSHAKE_FAILED: u32 = 9;

/// The channel is not open yet.
pub const SCTP_CHANNELS_STATE_CONNECTING: u32 = 0;
/// Messages go both ways.
pub const SCTP_CHANNELS_STATE_OPEN: u32 = 1;
/// The channel ends.
pub const SCTP_CHANNELS_STATE_CLOSING: u32 = 2;

/// The channels of one side, a part of [`sctp_peer`]. Nobody but the calls touches its fields.
#[repr(C)]
#[derive(Debug)]
pub struct sctp_channels {
    /// Where the channels lie.
    pub at: *mut c_void,
    /// Whether there is a side.
    pub live: bool,
}

/// The slot of an association with channels. All bytes 0 is the empty one. The calls of an association get `assoc`, and
/// those of channels the whole; nobody else touches its fields.
#[repr(C)]
#[derive(Debug)]
pub struct sctp_peer {
    /// The association.
    pub assoc: sctp_assoc,
    /// Its channels.
    pub channels: sctp_channels,
}

impl sctp_peer {
    /// The empty slot.
    pub const EMPTY: sctp_peer =
        sctp_peer { assoc: sctp_assoc::EMPTY, channels: sctp_channels { at: ptr::null_mut(), live: false } };
}

/// What a channel is asked to be, but for its label and protocol. The default is an ordered and reliable one.
#[repr(C)]
#[derive(Clone, Copy, Debug, Default)]
pub struct sctp_channels_options {
    /// [`SCTP_ASSOC_RELIABLE`](crate::SCTP_ASSOC_RELIABLE) or one of the two after it.
    pub reliability: u32,
    /// How often a message goes out again at most, or for how many ms.
    pub value: u32,
    /// Its priority (RFC 8831 section 6.4), which the peer is told.
    pub priority: u16,
    /// The identifier, if `negotiated`.
    pub id: u16,
    /// Messages are delivered as they come.
    pub unordered: bool,
    /// Both sides agreed on `id` in another way than by DCEP.
    pub negotiated: bool,
}

/// What happened to the channels of an association.
#[repr(C)]
#[derive(Clone, Copy, Debug, Default)]
pub struct sctp_channels_event {
    /// Of which kind it is: `SCTP_CHANNELS_EVENT_..`.
    pub kind: u32,
    /// Why: `SCTP_ASSOC_REASON_..`.
    pub reason: u32,
    /// The channel's identifier, 0 if the kind has none.
    pub id: u16,
}

/// What a channel is.
#[repr(C)]
#[derive(Clone, Copy, Debug, Default)]
pub struct sctp_channels_info {
    /// [`SCTP_ASSOC_RELIABLE`](crate::SCTP_ASSOC_RELIABLE) or one of the two after it.
    pub reliability: u32,
    /// How often a message goes out again at most, or for how many ms.
    pub value: u32,
    /// `SCTP_CHANNELS_STATE_..`.
    pub state: u32,
    /// Its priority (RFC 8831 section 6.4).
    pub priority: u16,
    /// How many bytes its label has.
    pub label_length: u16,
    /// How many bytes its protocol has.
    pub protocol_length: u16,
    /// Messages are delivered as they come.
    pub unordered: bool,
    /// Both sides agreed on its identifier in another way than by DCEP.
    pub negotiated: bool,
}

extern "C" {
    /// Begins the channels of a side, of which there is none yet. Channels that the peer had before are freed.
    pub fn sctp_channels_begin(peer: *mut sctp_peer, role: u32) -> sctp_assoc_code;
    /// Frees the channels and the association, and leaves the slot empty. The other side is told nothing.
    pub fn sctp_peer_free(peer: *mut sctp_peer) -> sctp_assoc_code;

    /// Makes a channel of this side, and writes its identifier.
    pub fn sctp_channels_open(
        peer: *mut sctp_peer,
        options: *const sctp_channels_options,
        label: *const u8,
        label_length: usize,
        protocol: *const u8,
        protocol_length: usize,
        id: *mut u16,
    ) -> sctp_assoc_code;
    /// Ends a channel: its stream is reset (RFC 8831 section 6.7).
    pub fn sctp_channels_close(peer: *mut sctp_peer, id: u16) -> sctp_assoc_code;

    /// Takes out the next event, in place of [`sctp_assoc_poll_event`](crate::sctp_assoc_poll_event) and
    /// [`sctp_assoc_accept_stream`](crate::sctp_assoc_accept_stream).
    pub fn sctp_channels_poll_event(peer: *mut sctp_peer, event: *mut sctp_channels_event) -> sctp_assoc_code;

    /// Sets how long a message may be that is sent on a channel of this peer, in bytes; 0 is any length.
    pub fn sctp_channels_set_max_message_size(peer: *mut sctp_peer, bytes: u32) -> sctp_assoc_code;
    /// Accepts one message, a text or a binary one.
    pub fn sctp_channels_send(
        peer: *mut sctp_peer,
        id: u16,
        is_text: bool,
        message: *const u8,
        length: usize,
    ) -> sctp_assoc_code;
    /// Copies the next message, whole, to the front of the buffer, and writes its length and whether it is a text.
    pub fn sctp_channels_receive(
        peer: *mut sctp_peer,
        id: u16,
        buffer: *mut u8,
        room: usize,
        length: *mut usize,
        is_text: *mut bool,
    ) -> sctp_assoc_code;

    /// Writes what the channel is.
    pub fn sctp_channels_get_info(peer: *mut sctp_peer, id: u16, info: *mut sctp_channels_info) -> sctp_assoc_code;
    /// Copies the label to the front of the buffer, and writes its length.
    pub fn sctp_channels_label(
        peer: *mut sctp_peer,
        id: u16,
        buffer: *mut u8,
        room: usize,
        length: *mut usize,
    ) -> sctp_assoc_code;
    /// Copies the protocol to the front of the buffer, and writes its length.
    pub fn sctp_channels_protocol(
        peer: *mut sctp_peer,
        id: u16,
        buffer: *mut u8,
        room: usize,
        length: *mut usize,
    ) -> sctp_assoc_code;
    /// Writes the buffered amount, in bytes.
    pub fn sctp_channels_buffered_amount(peer: *mut sctp_peer, id: u16, bytes: *mut usize) -> sctp_assoc_code;
    /// Writes the low threshold of the buffered amount, in bytes.
    pub fn sctp_channels_low_threshold(peer: *mut sctp_peer, id: u16, bytes: *mut usize) -> sctp_assoc_code;
    /// Sets the low threshold.
    pub fn sctp_channels_set_low_threshold(peer: *mut sctp_peer, id: u16, bytes: usize) -> sctp_assoc_code;

    /// The name of a code of these calls, without its prefix: constant text that ends with a byte 0.
    pub fn sctp_channels_code_name(code: sctp_assoc_code) -> *const c_char;
    /// That of a kind of event.
    pub fn sctp_channels_event_name(kind: u32) -> *const c_char;
    /// That of a state.
    pub fn sctp_channels_state_name(state: u32) -> *const c_char;
}
