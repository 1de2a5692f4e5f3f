use crate::Reliability;
use sctp_assoc_sys as sys;
use std::time::Duration;

/// The role of a side in the DTLS handshake. A client's own channels have even identifiers, a server's odd ones (RFC
/// 8832 section 6).
#[derive(Clone, Copy, Debug, PartialEq, Eq)]
pub enum Role {
    /// The client.
    Client,
    /// The server.
    Server,
}

impl Role {
    pub(super) fn number(self) -> u32 {
        match self {
            Role::Client => sys::SCTP_CHANNELS_CLIENT,
            Role::Server => sys::SCTP_CHANNELS_SERVER,
        }
    }
}

/// What a channel is asked to be, but for its label and protocol. [`Kind::ordered`], which is the default, and
/// [`Kind::unordered`] are reliable ones; the other calls change one:
///
/// ```
/// use sctp_assoc::channels::Kind;
///
/// let moves = Kind::unordered().max_retransmits(2).priority(256);
/// ```
#[derive(Clone, Copy, Debug, PartialEq, Eq)]
#[non_exhaustive]
pub struct Kind {
    /// Whether messages are delivered in order.
    pub ordered: bool,
    /// How long each message is sent again: `Retransmissions` is the W3C's maxRetransmits, `Lifetime` its
    /// maxPacketLifeTime.
    pub reliability: Reliability,
    /// Its priority (RFC 8831 section 6.4), which the peer is told; nothing more is done with it. 0.
    pub priority: u16,
    /// The identifier that both sides agreed on in another way, 0 to 65,534. Each opens the channel, and no message is
    /// sent for that. None, the default, has DCEP tell the peer.
    pub negotiated: Option<u16>,
}

impl Default for Kind {
    fn default() -> Kind {
        Kind::ordered()
    }
}

impl Kind {
    /// An ordered and reliable channel.
    #[must_use]
    pub const fn ordered() -> Kind {
        Kind { ordered: true, reliability: Reliability::Reliable, priority: 0, negotiated: None }
    }

    /// A reliable channel whose messages are delivered as they come.
    #[must_use]
    pub const fn unordered() -> Kind {
        Kind { ordered: false, ..Kind::ordered() }
    }

    /// Each message is sent again so many times at most, which is the W3C's maxRetransmits. It takes the place of a
    /// lifetime.
    #[must_use]
    pub const fn max_retransmits(self, times: u32) -> Kind {
        Kind { reliability: Reliability::Retransmissions(times), ..self }
    }

    /// Each message is sent for so long at most, which is the W3C's maxPacketLifeTime, as [`Reliability::Lifetime`]
    /// says. It takes the place of a limit of retransmissions.
    #[must_use]
    pub const fn max_lifetime(self, lifetime: Duration) -> Kind {
        Kind { reliability: Reliability::Lifetime(lifetime), ..self }
    }

    /// With this [`priority`](Kind#structfield.priority).
    #[must_use]
    pub const fn priority(self, priority: u16) -> Kind {
        Kind { priority, ..self }
    }

    /// With this [`negotiated`](Kind#structfield.negotiated) identifier.
    #[must_use]
    pub const fn negotiated(self, id: u16) -> Kind {
        Kind { negotiated: Some(id), ..self }
    }

    pub(super) fn raw(&self) -> sys::sctp_channels_options {
        let (reliability, value) = self.reliability.raw();
        sys::sctp_channels_options {
            reliability,
            value,
            priority: self.priority,
            id: self.negotiated.unwrap_or(0),
            unordered: !self.ordered,
            negotiated: self.negotiated.is_some(),
        }
    }
}

/// The state of a channel, as the W3C names it. One that is closed is gone.
#[derive(Clone, Copy, Debug, PartialEq, Eq)]
#[non_exhaustive]
pub enum State {
    /// It is not open yet.
    Connecting,
    /// Messages go both ways.
    Open,
    /// It ends.
    Closing,
}

impl State {
    fn of(number: u32) -> State {
        match number {
            sys::SCTP_CHANNELS_STATE_CONNECTING => State::Connecting,
            sys::SCTP_CHANNELS_STATE_OPEN => State::Open,
            _ => State::Closing,
        }
    }
}

/// What a channel is.
#[derive(Clone, Copy, Debug, PartialEq, Eq)]
#[non_exhaustive]
pub struct Info {
    /// Whether its messages are delivered in order.
    pub ordered: bool,
    /// How long each message is sent again.
    pub reliability: Reliability,
    /// Its priority (RFC 8831 section 6.4).
    pub priority: u16,
    /// Whether both sides agreed on its identifier in another way than by DCEP.
    pub negotiated: bool,
    /// Its state.
    pub state: State,
}

impl Info {
    pub(super) fn of(told: &sys::sctp_channels_info) -> Info {
        Info {
            ordered: !told.unordered,
            reliability: Reliability::of(told.reliability, told.value),
            priority: told.priority,
            negotiated: told.negotiated,
            state: State::of(told.state),
        }
    }
}

/// A message that was received, by its bytes: a slice of the reader's buffer, or a vector.
#[derive(Clone, Copy, Debug, PartialEq, Eq)]
pub enum Message<B> {
    /// A text: UTF-8 by RFC 8831 section 6.6, which nothing here looks at.
    Text(B),
    /// A binary message.
    Binary(B),
    /// A message of a payload type that RFC 8831 does not have, or that it has deprecated: of 52 and 54 each is a part
    /// of a message. Most programs pass over it.
    Other(B),
}

/// Which of them a message is.
#[derive(Clone, Copy)]
pub(super) enum Form {
    Text,
    Binary,
    Other,
}

impl<B> Message<B> {
    pub(super) fn of(form: Form, bytes: B) -> Message<B> {
        match form {
            Form::Text => Message::Text(bytes),
            Form::Binary => Message::Binary(bytes),
            Form::Other => Message::Other(bytes),
        }
    }

    /// Its bytes, whichever of them it is.
    pub fn into_bytes(self) -> B {
        match self {
            Message::Text(bytes) | Message::Binary(bytes) | Message::Other(bytes) => bytes,
        }
    }
}
