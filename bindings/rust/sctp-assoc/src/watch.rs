use sctp_assoc_sys as sys;
use std::fmt;
use std::time::Duration;

/// Datagrams that went through an association, and their bytes. A number that reaches `u64::MAX` stays there.
#[derive(Clone, Copy, Debug, Default, PartialEq, Eq)]
#[non_exhaustive]
pub struct Traffic {
    /// Datagrams that [`poll_transmit`](crate::Association::poll_transmit) gave.
    pub datagrams_sent: u64,
    /// Their bytes.
    pub bytes_sent: u64,
    /// Datagrams that were handed in and [`Taken`](crate::Fate::Taken).
    pub datagrams_received: u64,
    /// Their bytes.
    pub bytes_received: u64,
}

/// How much the path to the peer takes, and how much is under way on it.
#[derive(Clone, Copy, Debug, Default, PartialEq, Eq)]
#[non_exhaustive]
pub struct Path {
    /// The greatest payload of a DATA chunk and 28, in bytes: DATA chunks are bundled up to this length.
    pub mtu: u32,
    /// The congestion window, in bytes (RFC 4960 section 7.2).
    pub congestion_window: u32,
    /// The slow start threshold, in bytes (RFC 4960 section 7.2.1); at first the first window that the peer offered.
    pub slow_start_threshold: u32,
    /// The peer's receive window as it last said it, less the bytes in flight.
    pub peer_window: u32,
    /// Bytes of DATA that went out and are neither acknowledged nor given up.
    pub bytes_in_flight: u64,
    /// The smoothed round trip (RFC 4960 section 6.3.1), in whole milliseconds; zero before the first measurement.
    pub smoothed_round_trip: Duration,
}

/// Which way a datagram goes.
#[derive(Clone, Copy, Debug, PartialEq, Eq)]
pub enum Direction {
    /// To the peer.
    Sent,
    /// From the peer.
    Received,
}

/// Why an association ended.
#[derive(Clone, Copy, Debug, PartialEq, Eq)]
#[non_exhaustive]
pub enum End {
    /// [`close`](crate::Association::close) closed it.
    Closed,
    /// [`abort`](crate::Association::abort) closed it.
    Aborted,
    /// A [`shutdown`](crate::Association::shutdown) of either side went to its end.
    ShutDown,
    /// An ABORT of the peer came, with this cause.
    AbortCame(Cause),
    /// Another fault of the peer: a chunk that breaks the protocol or is not processed; an ERROR by
    /// [`Profile::Port`](crate::Profile::Port) alone.
    Fault,
    /// The receive buffer is full of what can never be read. If a read or a stop left it so, this is told from
    /// [`Event::Lost`](crate::Event::Lost) on.
    BufferExhausted,
    /// The peer is silent: DATA went out again as often as
    /// [`max_data_retransmits`](crate::Config::max_data_retransmits) says and is not acknowledged, or SHUTDOWN ACK as
    /// often as [`max_init_retransmits`](crate::Config::max_init_retransmits) says and is not answered.
    /// By [`Profile::Rfc`](crate::Profile::Rfc) alone.
    Silent,
}

/// The first cause of an ABORT that came (RFC 4960 section 3.3.10).
#[derive(Clone, Copy, PartialEq, Eq)]
pub struct Cause {
    /// Its code; 12 is User-Initiated Abort. 0 if the ABORT has none.
    pub code: u16,
    reason: [u8; 128],
    length: u16,
}

impl Cause {
    /// The first bytes of its value, up to 128: whatever the peer wrote there.
    pub fn reason(&self) -> &[u8] {
        &self.reason[..usize::from(self.length).min(self.reason.len())]
    }
}

impl fmt::Debug for Cause {
    fn fmt(&self, f: &mut fmt::Formatter<'_>) -> fmt::Result {
        let reason = String::from_utf8_lossy(self.reason());
        f.debug_struct("Cause").field("code", &self.code).field("reason", &reason).finish()
    }
}

impl Traffic {
    pub(crate) fn of(watch: &sys::sctp_assoc_watch) -> Traffic {
        Traffic {
            datagrams_sent: watch.datagrams_sent,
            bytes_sent: watch.bytes_sent,
            datagrams_received: watch.datagrams_received,
            bytes_received: watch.bytes_received,
        }
    }
}

impl Path {
    pub(crate) fn of(told: &sys::sctp_assoc_path_values) -> Path {
        Path {
            mtu: told.mtu,
            congestion_window: told.congestion_window,
            slow_start_threshold: told.slow_start_threshold,
            peer_window: told.peer_window,
            bytes_in_flight: told.bytes_in_flight,
            smoothed_round_trip: Duration::from_millis(told.smoothed_round_trip_ms),
        }
    }
}

impl End {
    pub(crate) fn of(watch: &sys::sctp_assoc_watch) -> Option<End> {
        Some(match watch.end {
            sys::SCTP_ASSOC_END_NONE => return None,
            sys::SCTP_ASSOC_END_CLOSED => End::Closed,
            sys::SCTP_ASSOC_END_ABORTED => End::Aborted,
            sys::SCTP_ASSOC_END_SHUT_DOWN => End::ShutDown,
            sys::SCTP_ASSOC_END_ABORT_CAME => {
                End::AbortCame(Cause { code: watch.cause, reason: watch.reason, length: watch.reason_length })
            }
            sys::SCTP_ASSOC_END_BUFFER_EXHAUSTED => End::BufferExhausted,
            sys::SCTP_ASSOC_END_SILENT => End::Silent,
            _ => End::Fault,
        })
    }
}
