use core::ffi::c_void;
use core::ptr;

/// What a call answers: one of the codes `SCTP_ASSOC_..`, from [`SCTP_ASSOC_DONE`](crate::SCTP_ASSOC_DONE) on.
pub type sctp_assoc_code = u32;

/// The slot: room for one association. All bytes 0 is the empty slot. Nobody but the calls touches its fields.
#[repr(C)]
#[derive(Debug)]
pub struct sctp_assoc {
    /// Where the association lies.
    pub at: *mut c_void,
    /// Whether there is one.
    pub live: bool,
}

impl sctp_assoc {
    /// The empty slot.
    pub const EMPTY: sctp_assoc = sctp_assoc { at: ptr::null_mut(), live: false };
}

/// Limits and timeouts of an association.
#[repr(C)]
#[derive(Clone, Copy, Debug, Default)]
pub struct sctp_assoc_config {
    /// The window that is offered, in bytes, 1500 or more.
    pub max_receive_buffer_size: u32,
    /// Greatest message that may be written, in bytes.
    pub max_send_message_size: u32,
    /// Greatest message that may come, in bytes; a longer one closes the association.
    pub max_receive_message_size: u32,
    /// Streams offered for sending, 1 to 65,535.
    pub max_num_outbound_streams: u16,
    /// Streams offered for receiving, 1 to 65,535.
    pub max_num_inbound_streams: u16,
    /// Own SCTP port, not 0; a server takes both ports from the INIT.
    pub local_port: u16,
    /// The peer's SCTP port, not 0.
    pub remote_port: u16,
    /// The rules that are kept where docs/CONFORMANCE.md has two:
    /// [`SCTP_ASSOC_PROFILE_RFC`](crate::SCTP_ASSOC_PROFILE_RFC) or
    /// [`SCTP_ASSOC_PROFILE_PORT`](crate::SCTP_ASSOC_PROFILE_PORT).
    pub profile: u32,
    /// Retransmission timeout before the first measurement, in ms, not 0 (RFC 4960 section 6.3.1).
    pub rto_initial_ms: u64,
    /// Least retransmission timeout, in ms, not 0.
    pub rto_min_ms: u64,
    /// Greatest retransmission timeout, in ms, not 0.
    pub rto_max_ms: u64,
    /// How often INIT and COOKIE ECHO go out again; [`SCTP_ASSOC_NO_LIMIT`](crate::SCTP_ASSOC_NO_LIMIT).
    pub max_init_retransmits: usize,
    /// Timeouts in a row in which DATA is sent again. At the next one the association ends by
    /// [`SCTP_ASSOC_PROFILE_RFC`](crate::SCTP_ASSOC_PROFILE_RFC), where a SACK with a window of 0 ends the row, too; by
    /// the other one DATA is no longer sent. [`SCTP_ASSOC_NO_LIMIT`](crate::SCTP_ASSOC_NO_LIMIT).
    pub max_data_retransmits: usize,
}

/// What names one side, from a random source that nobody can guess.
#[repr(C)]
#[derive(Clone, Copy, Debug, Default)]
pub struct sctp_assoc_identity {
    /// This side's verification tag (RFC 4960 section 8.5), not 0.
    pub tag: u32,
    /// The first TSN, not 0.
    pub initial_tsn: u32,
    /// A server's State Cookie (RFC 4960 section 5.1.3).
    pub cookie: [u8; 32],
}

/// What two sides that join without a handshake exchange: the values of the INIT chunk that each would send.
#[repr(C)]
#[derive(Clone, Copy, Debug, Default)]
pub struct sctp_assoc_token {
    /// The verification tag.
    pub tag: u32,
    /// The first TSN.
    pub initial_tsn: u32,
    /// The receive window, in bytes.
    pub window: u32,
    /// Streams offered for sending.
    pub num_outbound_streams: u16,
    /// Streams offered for receiving.
    pub num_inbound_streams: u16,
    /// Whether its Supported Extensions list FORWARD TSN (RFC 3758 section 3.1).
    pub forward_tsn: bool,
}

/// Messages and bytes of a stream under the payload types of WebRTC application data alone.
#[repr(C)]
#[derive(Clone, Copy, Debug, Default)]
pub struct sctp_assoc_counters {
    /// Messages that were accepted for sending.
    pub messages_sent: u64,
    /// Their bytes.
    pub bytes_sent: u64,
    /// Messages that were read.
    pub messages_received: u64,
    /// Their bytes.
    pub bytes_received: u64,
}

/// What happened to an association.
#[repr(C)]
#[derive(Clone, Copy, Debug, Default)]
pub struct sctp_assoc_event {
    /// Of which kind it is: `SCTP_ASSOC_EVENT_..`.
    pub kind: u32,
    /// Why: `SCTP_ASSOC_REASON_..`.
    pub reason: u32,
    /// The stream's identifier, 0 if the kind has none.
    pub stream: u16,
    /// The last counters of a stream that ended, else all 0.
    pub counters: sctp_assoc_counters,
}

/// What an association counted since it was made.
#[repr(C)]
#[derive(Clone, Copy, Debug, Default)]
pub struct sctp_assoc_totals {
    /// DATA chunks that came, those too that were dropped.
    pub data_chunks: u64,
    /// SACK chunks that came.
    pub sacks: u64,
    /// How often the timer of retransmissions expired (RFC 4960 section 6.3.3).
    pub retransmission_timeouts: u64,
    /// How often the timer of delayed acknowledgements expired (RFC 4960 section 6.2).
    pub ack_timeouts: u64,
    /// DATA chunks that were sent again fast (RFC 4960 section 7.2.4).
    pub fast_retransmissions: u64,
}

/// How much the path to the peer takes, and how much is under way on it.
#[repr(C)]
#[derive(Clone, Copy, Debug, Default)]
pub struct sctp_assoc_path_values {
    /// The greatest payload of a DATA chunk and 28, in bytes: DATA chunks are bundled up to this length.
    pub mtu: u32,
    /// The congestion window, in bytes (RFC 4960 section 7.2).
    pub congestion_window: u32,
    /// The slow start threshold, in bytes (RFC 4960 section 7.2.1).
    pub slow_start_threshold: u32,
    /// The peer's receive window as it last said it, less the bytes in flight.
    pub peer_window: u32,
    /// Bytes of DATA that went out and are neither acknowledged nor given up.
    pub bytes_in_flight: u64,
    /// In ms (RFC 4960 section 6.3.1); 0 before the first measurement.
    pub smoothed_round_trip_ms: u64,
}

/// What passed through the watched calls of an association, and why it ended. It begins as [`sctp_assoc_watch::NEW`]
/// and is changed by these calls alone.
#[repr(C)]
#[derive(Clone, Copy, Debug)]
pub struct sctp_assoc_watch {
    /// Datagrams that were given out.
    pub datagrams_sent: u64,
    /// Their bytes.
    pub bytes_sent: u64,
    /// Datagrams that were handed in and taken.
    pub datagrams_received: u64,
    /// Their bytes.
    pub bytes_received: u64,
    /// Why it ended: `SCTP_ASSOC_END_..`.
    pub end: u32,
    /// The code of the first cause of the ABORT that came, 0 if it has none (RFC 4960 section 3.3.10).
    pub cause: u16,
    /// How many bytes of `reason` there are.
    pub reason_length: u16,
    /// The first bytes of that cause's value.
    pub reason: [u8; 128],
}

impl sctp_assoc_watch {
    /// Of an association through which nothing passed.
    pub const NEW: sctp_assoc_watch = sctp_assoc_watch {
        datagrams_sent: 0,
        bytes_sent: 0,
        datagrams_received: 0,
        bytes_received: 0,
        end: 0,
        cause: 0,
        reason_length: 0,
        reason: [0; 128],
    };
}

/// The numbers of an association at once.
#[repr(C)]
#[derive(Clone, Copy, Debug, Default)]
pub struct sctp_assoc_metrics {
    /// How much the path to the peer takes, and how much is under way on it.
    pub path: sctp_assoc_path_values,
    /// What the association counted since it was made.
    pub totals: sctp_assoc_totals,
    /// The retransmission timeout, in ms.
    pub rto_ms: u64,
    /// Datagrams that the watch saw given out, 0 without one.
    pub datagrams_sent: u64,
    /// Their bytes.
    pub bytes_sent: u64,
    /// Datagrams that the watch saw handed in and taken, 0 without one.
    pub datagrams_received: u64,
    /// Their bytes.
    pub bytes_received: u64,
    /// The moment at which the next timer expires, 0 if none runs.
    pub next_timeout: u64,
    /// Whether a timer runs.
    pub timer_runs: bool,
    /// Whether the state is Established (RFC 4960 section 4).
    pub established: bool,
    /// Whether a shutdown has begun, at either side, and the association is not closed yet.
    pub closing: bool,
    /// Whether the state is Closed.
    pub closed: bool,
    /// Whether the association was lost.
    pub drained: bool,
    /// Whether an earlier call found no memory in its middle.
    pub failed: bool,
}

/// A heap for [`sctp_assoc_set_heap`](crate::sctp_assoc_set_heap), which has all three functions. A size is 1 or more,
/// and `align` a power of two up to 16.
#[repr(C)]
#[derive(Clone, Copy, Debug)]
pub struct sctp_assoc_heap {
    /// Answers a block of this size and alignment, or null.
    pub allocate: Option<unsafe extern "C" fn(user: *mut c_void, size: usize, align: usize) -> *mut c_void>,
    /// Answers a block of this size that has the first `kept` bytes of the block `at`, which is given back by that; or
    /// null, and then that stays as it was.
    pub reallocate: Option<
        unsafe extern "C" fn(user: *mut c_void, at: *mut c_void, kept: usize, size: usize, align: usize) -> *mut c_void,
    >,
    /// Gives a block back.
    pub release: Option<unsafe extern "C" fn(user: *mut c_void, at: *mut c_void)>,
    /// What each function is handed.
    pub user: *mut c_void,
}
