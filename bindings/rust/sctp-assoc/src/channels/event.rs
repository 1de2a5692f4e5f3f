use crate::Reason;
use sctp_assoc_sys as sys;

/// What happened to the channels of an association, as [`poll_event`](super::Connection::poll_event) tells it.
#[derive(Clone, Copy, Debug, PartialEq, Eq)]
#[non_exhaustive]
pub enum Event {
    /// The association is established.
    Connected,
    /// The peer opened this channel, and it is open.
    Announced {
        /// The channel's identifier.
        id: u16,
    },
    /// This channel of this side is open: the peer answered. A negotiated one is open once the association is
    /// established.
    Opened {
        /// The channel's identifier.
        id: u16,
    },
    /// Messages of this channel may have come: receive until there is none.
    Message {
        /// The channel's identifier.
        id: u16,
    },
    /// The buffered amount of this channel fell from above its low threshold to it or below.
    BufferedLow {
        /// The channel's identifier.
        id: u16,
    },
    /// This channel ended, by either side, and all that came before was received. It is gone and its identifier is free
    /// again, unless the reset of its stream failed: then it stays [`Closing`](super::State::Closing), and this is told
    /// once more if the peer answers later.
    Closed {
        /// The channel's identifier.
        id: u16,
    },
    /// The peer's stream began with something else than an OPEN and is being reset, or this side's channel could not be
    /// begun. There is no such channel.
    Failed {
        /// The stream's identifier.
        id: u16,
    },
    /// The association ended. All channels are gone.
    Lost {
        /// By what.
        reason: Reason,
    },
    /// Its handshake failed. All channels are gone.
    HandshakeFailed {
        /// By which of its two messages.
        reason: Reason,
    },
    /// An event that has no name here, by its number in `sctp_channels.h`; none of these is told so far.
    Other {
        /// The number of its kind.
        kind: u32,
        /// The channel's identifier, 0 if it has none.
        id: u16,
    },
}

impl Event {
    pub(super) fn of(told: &sys::sctp_channels_event) -> Event {
        let id = told.id;
        match told.kind {
            sys::SCTP_CHANNELS_EVENT_CONNECTED => Event::Connected,
            sys::SCTP_CHANNELS_EVENT_ANNOUNCED => Event::Announced { id },
            sys::SCTP_CHANNELS_EVENT_OPENED => Event::Opened { id },
            sys::SCTP_CHANNELS_EVENT_MESSAGE => Event::Message { id },
            sys::SCTP_CHANNELS_EVENT_BUFFERED_LOW => Event::BufferedLow { id },
            sys::SCTP_CHANNELS_EVENT_CLOSED => Event::Closed { id },
            sys::SCTP_CHANNELS_EVENT_FAILED => Event::Failed { id },
            sys::SCTP_CHANNELS_EVENT_LOST => Event::Lost { reason: Reason::of(told.reason) },
            sys::SCTP_CHANNELS_EVENT_HANDSHAKE_FAILED => Event::HandshakeFailed { reason: Reason::of(told.reason) },
            kind => Event::Other { kind, id },
        }
    }
}
