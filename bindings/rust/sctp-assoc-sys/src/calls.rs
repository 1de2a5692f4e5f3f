use crate::{
    sctp_assoc, sctp_assoc_code, sctp_assoc_config, sctp_assoc_counters, sctp_assoc_event, sctp_assoc_heap,
    sctp_assoc_identity, sctp_assoc_metrics, sctp_assoc_path_values, sctp_assoc_token, sctp_assoc_totals,
    sctp_assoc_watch,
};
use core::ffi::c_char;

extern "C" {
    /// The release of the archive: 10,000 times the first number, 100 times the second, and the third.
    pub fn sctp_assoc_version() -> u32;

    /// Writes the defaults.
    pub fn sctp_assoc_default_config(config: *mut sctp_assoc_config) -> sctp_assoc_code;
    /// Draws an identity from the system's random source.
    pub fn sctp_assoc_random_identity(identity: *mut sctp_assoc_identity) -> sctp_assoc_code;
    /// Writes the token of a side with this configuration.
    pub fn sctp_assoc_make_token(
        config: *const sctp_assoc_config,
        tag: u32,
        initial_tsn: u32,
        token: *mut sctp_assoc_token,
    ) -> sctp_assoc_code;
    /// Writes the INIT chunk with the values of a token to the front of the buffer, and its length.
    pub fn sctp_assoc_token_to_init(
        token: *const sctp_assoc_token,
        buffer: *mut u8,
        room: usize,
        length: *mut usize,
    ) -> sctp_assoc_code;
    /// Reads a token out of the INIT chunk of a peer.
    pub fn sctp_assoc_token_from_init(init: *const u8, length: usize, token: *mut sctp_assoc_token) -> sctp_assoc_code;

    /// Makes a client, whose INIT waits for [`sctp_assoc_poll_transmit`]. What the slot held is freed.
    pub fn sctp_assoc_client(
        slot: *mut sctp_assoc,
        config: *const sctp_assoc_config,
        max_payload_size: u32,
        identity: *const sctp_assoc_identity,
        now: u64,
    ) -> sctp_assoc_code;
    /// Makes a server, which waits for an INIT. What the slot held is freed.
    pub fn sctp_assoc_server(
        slot: *mut sctp_assoc,
        config: *const sctp_assoc_config,
        max_payload_size: u32,
        identity: *const sctp_assoc_identity,
        now: u64,
    ) -> sctp_assoc_code;
    /// Makes one that is established at once, by both sides' tokens. What the slot held is freed.
    pub fn sctp_assoc_joined(
        slot: *mut sctp_assoc,
        config: *const sctp_assoc_config,
        max_payload_size: u32,
        local: *const sctp_assoc_token,
        remote: *const sctp_assoc_token,
    ) -> sctp_assoc_code;
    /// Frees the association and leaves the slot empty. The peer is told nothing. Of no slot it answers
    /// [`SCTP_ASSOC_EMPTY_SLOT`](crate::SCTP_ASSOC_EMPTY_SLOT).
    pub fn sctp_assoc_free(slot: *mut sctp_assoc) -> sctp_assoc_code;
    /// Begins to end the association gracefully (RFC 4960 section 9.2).
    pub fn sctp_assoc_shutdown(slot: *mut sctp_assoc) -> sctp_assoc_code;
    /// Asks the peer whether it is there, by a HEARTBEAT (RFC 4960 section 8.3).
    pub fn sctp_assoc_heartbeat(slot: *mut sctp_assoc, now: u64) -> sctp_assoc_code;
    /// Closes the association at once; nothing is told to the peer.
    pub fn sctp_assoc_close(slot: *mut sctp_assoc) -> sctp_assoc_code;
    /// Closes the association at once, and tells the peer by an ABORT with this reason (RFC 4960 section 9.1).
    pub fn sctp_assoc_abort(slot: *mut sctp_assoc, reason: *const u8, length: usize) -> sctp_assoc_code;

    /// Takes in one datagram that came at `now`; `fate` says what became of it, by one of the five from
    /// [`SCTP_ASSOC_TAKEN`](crate::SCTP_ASSOC_TAKEN) on.
    pub fn sctp_assoc_handle_datagram(
        slot: *mut sctp_assoc,
        now: u64,
        datagram: *const u8,
        length: usize,
        fate: *mut u32,
    ) -> sctp_assoc_code;
    /// Copies the next datagram that is due at `now` to the front of the buffer, and writes its length.
    pub fn sctp_assoc_poll_transmit(
        slot: *mut sctp_assoc,
        now: u64,
        buffer: *mut u8,
        room: usize,
        length: *mut usize,
    ) -> sctp_assoc_code;
    /// Writes the moment at which the next timer expires.
    pub fn sctp_assoc_poll_timeout(slot: *mut sctp_assoc, moment: *mut u64) -> sctp_assoc_code;
    /// Does what the timers that expired by `now` ask for.
    pub fn sctp_assoc_handle_timeout(slot: *mut sctp_assoc, now: u64) -> sctp_assoc_code;
    /// Takes out the oldest event.
    pub fn sctp_assoc_poll_event(slot: *mut sctp_assoc, event: *mut sctp_assoc_event) -> sctp_assoc_code;
    /// Whether a shutdown began here, once: [`SCTP_ASSOC_DONE`](crate::SCTP_ASSOC_DONE) tells it.
    pub fn sctp_assoc_poll_endpoint_event(slot: *mut sctp_assoc) -> sctp_assoc_code;

    /// Whether the state is Established (RFC 4960 section 4). That of an empty slot is not.
    pub fn sctp_assoc_is_established(slot: *const sctp_assoc) -> bool;
    /// Whether a shutdown has begun, at either side, and the association is not closed yet.
    pub fn sctp_assoc_is_closing(slot: *mut sctp_assoc, answer: *mut bool) -> sctp_assoc_code;
    /// Whether the state is Closed.
    pub fn sctp_assoc_is_closed(slot: *mut sctp_assoc, answer: *mut bool) -> sctp_assoc_code;
    /// Whether the association was lost, or the slot is empty.
    pub fn sctp_assoc_is_drained(slot: *const sctp_assoc) -> bool;
    /// Whether an earlier call found no memory in its middle.
    pub fn sctp_assoc_is_failed(slot: *mut sctp_assoc, answer: *mut bool) -> sctp_assoc_code;
    /// Writes what the association counted.
    pub fn sctp_assoc_stats(slot: *mut sctp_assoc, totals: *mut sctp_assoc_totals) -> sctp_assoc_code;
    /// Writes the retransmission timeout, in ms.
    pub fn sctp_assoc_rto(slot: *mut sctp_assoc, ms: *mut u64) -> sctp_assoc_code;
    /// Writes what is known of the path to the peer.
    pub fn sctp_assoc_path(slot: *mut sctp_assoc, path: *mut sctp_assoc_path_values) -> sctp_assoc_code;

    /// Makes a stream on this side.
    pub fn sctp_assoc_open_stream(slot: *mut sctp_assoc, stream: u16, payload_type: u32) -> sctp_assoc_code;
    /// Takes out the identifier of the oldest stream that the peer opened and that was not accepted yet.
    pub fn sctp_assoc_accept_stream(slot: *mut sctp_assoc, stream: *mut u16) -> sctp_assoc_code;
    /// Accepts one message.
    pub fn sctp_assoc_write(
        slot: *mut sctp_assoc,
        stream: u16,
        payload_type: u32,
        message: *const u8,
        length: usize,
    ) -> sctp_assoc_code;
    /// Copies the next message, whole, to the front of the buffer, and writes its length and its payload protocol
    /// identifier. If that opens the receive window, an acknowledgement is due: poll for datagrams after it.
    pub fn sctp_assoc_read(
        slot: *mut sctp_assoc,
        stream: u16,
        buffer: *mut u8,
        room: usize,
        length: *mut usize,
        payload_type: *mut u32,
    ) -> sctp_assoc_code;
    /// Writes the length of the next message of a stream, 1 or more, which a read with that much room gives. It is a
    /// read without room: poll for datagrams after it, too. Messages of length 0 are dropped.
    pub fn sctp_assoc_next_length(slot: *mut sctp_assoc, stream: u16, length: *mut usize) -> sctp_assoc_code;
    /// Closes the write half of a stream.
    pub fn sctp_assoc_finish(slot: *mut sctp_assoc, stream: u16) -> sctp_assoc_code;
    /// Closes the read half of a stream and asks for a reset of it (RFC 6525).
    pub fn sctp_assoc_stop(slot: *mut sctp_assoc, stream: u16) -> sctp_assoc_code;
    /// Closes both halves of a stream.
    pub fn sctp_assoc_close_stream(slot: *mut sctp_assoc, stream: u16) -> sctp_assoc_code;
    /// Sets the greatest message that may be written, in bytes.
    pub fn sctp_assoc_set_max_send_message_size(slot: *mut sctp_assoc, bytes: u32) -> sctp_assoc_code;
    /// Sets how messages of a stream that are written from now on are sent; `kind` is
    /// [`SCTP_ASSOC_RELIABLE`](crate::SCTP_ASSOC_RELIABLE) or one of the two after it.
    pub fn sctp_assoc_set_reliability(
        slot: *mut sctp_assoc,
        stream: u16,
        unordered: bool,
        kind: u32,
        value: u32,
    ) -> sctp_assoc_code;
    /// Writes the identifiers of the streams to the front of `ids`, ascending, and how many there are.
    pub fn sctp_assoc_stream_ids(
        slot: *mut sctp_assoc,
        ids: *mut u16,
        room: usize,
        count: *mut usize,
    ) -> sctp_assoc_code;
    /// Writes what the stream counted.
    pub fn sctp_assoc_stream_stats(
        slot: *mut sctp_assoc,
        stream: u16,
        counters: *mut sctp_assoc_counters,
    ) -> sctp_assoc_code;
    /// Writes the payload protocol identifier of messages whose write names none.
    pub fn sctp_assoc_payload_type(slot: *mut sctp_assoc, stream: u16, payload_type: *mut u32) -> sctp_assoc_code;
    /// Sets it.
    pub fn sctp_assoc_set_payload_type(slot: *mut sctp_assoc, stream: u16, payload_type: u32) -> sctp_assoc_code;
    /// Writes the buffered amount, in bytes.
    pub fn sctp_assoc_buffered_amount(slot: *mut sctp_assoc, stream: u16, bytes: *mut usize) -> sctp_assoc_code;
    /// Writes the low mark, in bytes.
    pub fn sctp_assoc_low_mark(slot: *mut sctp_assoc, stream: u16, bytes: *mut usize) -> sctp_assoc_code;
    /// Sets the low mark.
    pub fn sctp_assoc_set_low_mark(slot: *mut sctp_assoc, stream: u16, bytes: usize) -> sctp_assoc_code;
    /// Writes the high mark, in bytes.
    pub fn sctp_assoc_high_mark(slot: *mut sctp_assoc, stream: u16, bytes: *mut usize) -> sctp_assoc_code;
    /// Sets the high mark.
    pub fn sctp_assoc_set_high_mark(slot: *mut sctp_assoc, stream: u16, bytes: usize) -> sctp_assoc_code;

    /// [`sctp_assoc_handle_datagram`], which the watch counts.
    pub fn sctp_assoc_watched_handle_datagram(
        slot: *mut sctp_assoc,
        watch: *mut sctp_assoc_watch,
        now: u64,
        datagram: *const u8,
        length: usize,
        fate: *mut u32,
    ) -> sctp_assoc_code;
    /// [`sctp_assoc_poll_transmit`], which the watch counts.
    pub fn sctp_assoc_watched_poll_transmit(
        slot: *mut sctp_assoc,
        watch: *mut sctp_assoc_watch,
        now: u64,
        buffer: *mut u8,
        room: usize,
        length: *mut usize,
    ) -> sctp_assoc_code;
    /// [`sctp_assoc_handle_timeout`], which the watch notes.
    pub fn sctp_assoc_watched_handle_timeout(
        slot: *mut sctp_assoc,
        watch: *mut sctp_assoc_watch,
        now: u64,
    ) -> sctp_assoc_code;
    /// [`sctp_assoc_poll_event`], by which the watch notes that a read or a stop left the receive buffer exhausted.
    pub fn sctp_assoc_watched_poll_event(
        slot: *mut sctp_assoc,
        watch: *mut sctp_assoc_watch,
        event: *mut sctp_assoc_event,
    ) -> sctp_assoc_code;
    /// [`sctp_assoc_close`], which the watch notes.
    pub fn sctp_assoc_watched_close(slot: *mut sctp_assoc, watch: *mut sctp_assoc_watch) -> sctp_assoc_code;
    /// [`sctp_assoc_abort`], which the watch notes.
    pub fn sctp_assoc_watched_abort(
        slot: *mut sctp_assoc,
        watch: *mut sctp_assoc_watch,
        reason: *const u8,
        length: usize,
    ) -> sctp_assoc_code;

    /// Writes the numbers of the association at once. `watch` may be null.
    pub fn sctp_assoc_get_metrics(
        slot: *mut sctp_assoc,
        watch: *const sctp_assoc_watch,
        metrics: *mut sctp_assoc_metrics,
    ) -> sctp_assoc_code;

    /// The name of a code, without its prefix: constant text that ends with a byte 0.
    pub fn sctp_assoc_code_name(code: sctp_assoc_code) -> *const c_char;
    /// That of the fate of a datagram.
    pub fn sctp_assoc_fate_name(fate: u32) -> *const c_char;
    /// That of a kind of event.
    pub fn sctp_assoc_event_name(kind: u32) -> *const c_char;
    /// That of a reason.
    pub fn sctp_assoc_reason_name(reason: u32) -> *const c_char;
    /// That of the end that a watch noted.
    pub fn sctp_assoc_end_name(end: u32) -> *const c_char;

    /// Sets the heap of the process, of which a copy is kept; null sets that of the C library again, as at first. This
    /// is called while there are neither associations nor channels, and no other thread makes a call. The functions are
    /// called by each thread that makes calls, and make none themselves. A program that defines `rattle_alloc`,
    /// `rattle_realloc` and `rattle_dealloc` cannot be linked with this call.
    pub fn sctp_assoc_set_heap(heap: *const sctp_assoc_heap) -> sctp_assoc_code;
}
