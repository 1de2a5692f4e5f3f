use sctp_assoc_sys as sys;

/// What whoever keeps several associations is to be told of one, by
/// [`poll_endpoint_event`](crate::Association::poll_endpoint_event).
#[derive(Clone, Copy, Debug, PartialEq, Eq)]
#[non_exhaustive]
pub enum EndpointEvent {
    /// The application began a shutdown here: nothing is written any more. Reads, and the calls with datagrams and
    /// moments, go on until [`is_drained`](crate::Association::is_drained).
    Drained,
}

/// What happened to an association, as [`poll_event`](crate::Association::poll_event) tells it.
#[derive(Clone, Copy, Debug, PartialEq, Eq)]
#[non_exhaustive]
pub enum Event {
    /// Established: messages can be written from now on.
    Connected,
    /// INIT or COOKIE ECHO went out too often without an answer; told once for each of the two. A late answer still
    /// establishes: [`Event::Connected`] may follow this, or come before it.
    HandshakeFailed {
        /// Which of the two.
        reason: Reason,
    },
    /// The association was closed.
    Lost {
        /// By what.
        reason: Reason,
    },
    /// A DATA chunk was taken in; told once for each.
    DatagramReceived,
    /// A stream ended.
    StreamEnded {
        /// Its identifier.
        stream: u16,
        /// Its last counters.
        counters: Counters,
    },
    /// The peer opened a stream, by a message, or by [`Profile::Rfc`](crate::Profile::Rfc) also by an ordered one that
    /// it gave up.
    Opened {
        /// Its identifier.
        stream: u16,
    },
    /// Messages of a stream can be read: read until there is none. Told for each DATA chunk that is taken in while one
    /// is ready, so several may come of one event, and none of the next; and if the peer gave up what stood before.
    Readable {
        /// The stream's identifier.
        stream: u16,
    },
    /// The buffered amount of a stream fell to its low mark or below, since messages were acknowledged or given up.
    BufferedAmountLow {
        /// The stream's identifier.
        stream: u16,
    },
    /// The buffered amount of a stream rose to its high mark or above.
    BufferedAmountHigh {
        /// The stream's identifier.
        stream: u16,
    },
    /// The peer ended its half of a stream, and all that it sent before was read.
    Finished {
        /// The stream's identifier.
        stream: u16,
    },
    /// Both halves of a stream are reset: it can be opened anew.
    ResetComplete {
        /// The stream's identifier.
        stream: u16,
    },
    /// The own half of a stream was not reset, or the peer did not answer so far: by
    /// [`Profile::Rfc`](crate::Profile::Rfc) it is asked again, and [`Event::ResetComplete`] may follow.
    ResetFailed {
        /// The stream's identifier.
        stream: u16,
        /// Why.
        reason: Reason,
    },
    /// An event that has no name here, by its number in `sctp_assoc.h`; none of these is told so far.
    Other {
        /// The number of its kind.
        kind: u32,
        /// The stream's identifier, 0 if it has none.
        stream: u16,
    },
}

/// Why an association ended or never began, or why the reset of a stream failed.
#[derive(Clone, Copy, Debug, PartialEq, Eq)]
#[non_exhaustive]
pub enum Reason {
    /// INIT was not answered.
    NoInitAck,
    /// COOKIE ECHO was not answered.
    NoCookieAck,
    /// The end of a [`shutdown`](crate::Association::shutdown) of either side, [`close`](crate::Association::close), an
    /// ABORT of either side or another fault of the peer: [`end`](crate::Association::end) says which.
    Closed,
    /// The receive buffer is full of what can never be read; by [`Profile::Port`](crate::Profile::Port) also of what
    /// came on stopped streams.
    BufferExhausted,
    /// The peer denied the reset of a stream (RFC 6525 section 4.4).
    ResetDenied,
    /// The peer reported an error for the reset of a stream, or did not answer.
    ResetFailed,
    /// Another reason; none of these is told so far.
    Other,
}

/// Messages and bytes of a stream under the payload types of WebRTC application data (51, 53, 56 and 57) alone. A
/// number that reaches `u64::MAX` stays there.
#[derive(Clone, Copy, Debug, Default, PartialEq, Eq)]
#[non_exhaustive]
pub struct Counters {
    /// Messages that were accepted for sending.
    pub messages_sent: u64,
    /// Their bytes.
    pub bytes_sent: u64,
    /// Messages that were read.
    pub messages_received: u64,
    /// Their bytes.
    pub bytes_received: u64,
}

impl Event {
    pub(crate) fn of(told: &sys::sctp_assoc_event) -> Event {
        let stream = told.stream;
        match told.kind {
            sys::SCTP_ASSOC_EVENT_CONNECTED => Event::Connected,
            sys::SCTP_ASSOC_EVENT_HANDSHAKE_FAILED => Event::HandshakeFailed { reason: Reason::of(told.reason) },
            sys::SCTP_ASSOC_EVENT_LOST => Event::Lost { reason: Reason::of(told.reason) },
            sys::SCTP_ASSOC_EVENT_DATAGRAM_RECEIVED => Event::DatagramReceived,
            sys::SCTP_ASSOC_EVENT_STREAM_ENDED => Event::StreamEnded { stream, counters: Counters::of(&told.counters) },
            sys::SCTP_ASSOC_EVENT_OPENED => Event::Opened { stream },
            sys::SCTP_ASSOC_EVENT_READABLE => Event::Readable { stream },
            sys::SCTP_ASSOC_EVENT_BUFFERED_LOW => Event::BufferedAmountLow { stream },
            sys::SCTP_ASSOC_EVENT_BUFFERED_HIGH => Event::BufferedAmountHigh { stream },
            sys::SCTP_ASSOC_EVENT_FINISHED => Event::Finished { stream },
            sys::SCTP_ASSOC_EVENT_RESET_COMPLETE => Event::ResetComplete { stream },
            sys::SCTP_ASSOC_EVENT_RESET_FAILED => Event::ResetFailed { stream, reason: Reason::of(told.reason) },
            kind => Event::Other { kind, stream },
        }
    }
}

impl Reason {
    pub(crate) fn of(number: u32) -> Reason {
        match number {
            sys::SCTP_ASSOC_REASON_NO_INIT_ACK => Reason::NoInitAck,
            sys::SCTP_ASSOC_REASON_NO_COOKIE_ACK => Reason::NoCookieAck,
            sys::SCTP_ASSOC_REASON_CLOSED => Reason::Closed,
            sys::SCTP_ASSOC_REASON_BUFFER_EXHAUSTED => Reason::BufferExhausted,
            sys::SCTP_ASSOC_REASON_RESET_DENIED => Reason::ResetDenied,
            sys::SCTP_ASSOC_REASON_RESET_FAILED => Reason::ResetFailed,
            _ => Reason::Other,
        }
    }
}

impl Counters {
    pub(crate) fn of(told: &sys::sctp_assoc_counters) -> Counters {
        Counters {
            messages_sent: told.messages_sent,
            bytes_sent: told.bytes_sent,
            messages_received: told.messages_received,
            bytes_received: told.bytes_received,
        }
    }
}
