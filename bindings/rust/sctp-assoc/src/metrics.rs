use crate::{Path, Totals, Traffic};
use sctp_assoc_sys as sys;
use std::time::{Duration, Instant};

/// The numbers of an association at one moment, such as for a dashboard. Each can be asked by itself, too.
///
/// Of a failed association [`failed`](Metrics::failed) is true and no timer runs. All else is what was known last,
/// [`established`](Metrics::established), too, although nothing can be written any more.
#[derive(Clone, Copy, Debug, PartialEq, Eq)]
#[non_exhaustive]
pub struct Metrics {
    /// What is known of the path to the peer, as of [`path`](crate::Association::path).
    pub path: Path,
    /// The retransmission timeout, as of [`rto`](crate::Association::rto).
    pub rto: Duration,
    /// What the association counted, as of [`stats`](crate::Association::stats).
    pub totals: Totals,
    /// The datagrams that went through it, as of [`traffic`](crate::Association::traffic).
    pub traffic: Traffic,
    /// The moment at which the next timer expires, as of [`poll_timeout`](crate::Association::poll_timeout).
    pub next_timeout: Option<Instant>,
    /// As of [`is_established`](crate::Association::is_established).
    pub established: bool,
    /// As of [`is_closing`](crate::Association::is_closing).
    pub closing: bool,
    /// As of [`is_closed`](crate::Association::is_closed).
    pub closed: bool,
    /// As of [`is_drained`](crate::Association::is_drained).
    pub drained: bool,
    /// As of [`is_failed`](crate::Association::is_failed).
    pub failed: bool,
}

impl Metrics {
    /// Those that the library told. The moment of the next timer is told by nanoseconds since the association was made.
    pub(crate) fn of(told: &sys::sctp_assoc_metrics, next_timeout: Option<Instant>) -> Metrics {
        Metrics {
            path: Path::of(&told.path),
            rto: Duration::from_millis(told.rto_ms),
            totals: Totals::of(&told.totals),
            traffic: Traffic {
                datagrams_sent: told.datagrams_sent,
                bytes_sent: told.bytes_sent,
                datagrams_received: told.datagrams_received,
                bytes_received: told.bytes_received,
            },
            next_timeout,
            established: told.established,
            closing: told.closing,
            closed: told.closed,
            drained: told.drained,
            failed: told.failed,
        }
    }
}
