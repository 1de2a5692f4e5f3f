use crate::{slot, Error};
use sctp_assoc_sys as sys;
use std::time::Duration;

/// Limits and timeouts of an association. `Config::default()` has the values named below; set the fields that are to
/// have others.
#[derive(Clone, Debug, PartialEq, Eq)]
#[non_exhaustive]
pub struct Config {
    /// Greatest payload of one DATA chunk, 1 to 65,519 bytes; 1164, which fits links of 1280 bytes below DTLS, UDP and
    /// IPv6. A datagram with DATA has up to 28 bytes more, and up to 3 besides if this is no multiple of 4.
    /// [`poll_transmit`](crate::Association::poll_transmit) says how long others get.
    pub max_payload_size: u32,
    /// The receive buffer and the window that is offered, in bytes; 1,048,576. It is 1500 at least.
    pub max_receive_buffer_size: u32,
    /// Greatest message that may be written, in bytes; 65,536.
    pub max_send_message_size: u32,
    /// Greatest message that may come, in bytes; 65,536. A longer one closes the association.
    pub max_receive_message_size: u32,
    /// Streams offered for sending; 65,535. A peer refuses 0.
    pub max_num_outbound_streams: u16,
    /// Streams offered for receiving; 65,535. A peer refuses 0; one that uses more of them is not refused.
    pub max_num_inbound_streams: u16,
    /// Own SCTP port, not 0; 5000. A server takes both ports from the INIT.
    pub local_port: u16,
    /// The peer's SCTP port, not 0; 5000.
    pub remote_port: u16,
    /// The rules that are kept where docs/CONFORMANCE.md of the checkout has two; [`Profile::Rfc`].
    pub profile: Profile,
    /// Retransmission timeout before the first measurement (RFC 4960 section 6.3.1); 500 ms. Whole milliseconds count,
    /// and one at least is needed.
    pub rto_initial: Duration,
    /// Least retransmission timeout; 400 ms. The same holds of it. A peer may hold back a SACK for 200 ms.
    pub rto_min: Duration,
    /// Greatest retransmission timeout; 60 s. The same holds of it.
    pub rto_max: Duration,
    /// How often INIT and COOKIE ECHO go out again before the handshake fails, and a request to reset streams before
    /// [`Event::ResetFailed`](crate::Event::ResetFailed); by [`Profile::Rfc`] SHUTDOWN ACK, too, before the association
    /// ends; 8. None is no limit.
    pub max_init_retransmits: Option<usize>,
    /// Timeouts in a row in which DATA is sent again. At the next one the association ends by [`Profile::Rfc`], where a
    /// SACK with a window of 0 ends the row, too. By [`Profile::Port`] DATA is no longer sent, and nothing tells of
    /// that, so take None there, and bound the wait for an acknowledgement. 10; None is no limit.
    pub max_data_retransmits: Option<usize>,
}

/// Which rules an association keeps where docs/CONFORMANCE.md of the checkout has two. Each side has its own, of which
/// the peer is told nothing.
#[derive(Clone, Copy, Debug, PartialEq, Eq)]
pub enum Profile {
    /// Rules that the RFCs ask for or leave open; the default. A read that opens the receive window leaves an
    /// acknowledgement to send, for which the peer may wait.
    Rfc,
    /// Those of the crate `sctp-proto` 0.10.8, which the library is a port of.
    Port,
}

impl Profile {
    fn of(number: u32) -> Profile {
        match number {
            sys::SCTP_ASSOC_PROFILE_PORT => Profile::Port,
            _ => Profile::Rfc,
        }
    }

    fn raw(self) -> u32 {
        match self {
            Profile::Rfc => sys::SCTP_ASSOC_PROFILE_RFC,
            Profile::Port => sys::SCTP_ASSOC_PROFILE_PORT,
        }
    }
}

impl Default for Config {
    fn default() -> Config {
        let raw = slot::default_config();
        Config {
            max_payload_size: 1164,
            max_receive_buffer_size: raw.max_receive_buffer_size,
            max_send_message_size: raw.max_send_message_size,
            max_receive_message_size: raw.max_receive_message_size,
            max_num_outbound_streams: raw.max_num_outbound_streams,
            max_num_inbound_streams: raw.max_num_inbound_streams,
            local_port: raw.local_port,
            remote_port: raw.remote_port,
            profile: Profile::of(raw.profile),
            rto_initial: Duration::from_millis(raw.rto_initial_ms),
            rto_min: Duration::from_millis(raw.rto_min_ms),
            rto_max: Duration::from_millis(raw.rto_max_ms),
            max_init_retransmits: limit(raw.max_init_retransmits),
            max_data_retransmits: limit(raw.max_data_retransmits),
        }
    }
}

impl Config {
    pub(crate) fn raw(&self) -> sys::sctp_assoc_config {
        sys::sctp_assoc_config {
            max_receive_buffer_size: self.max_receive_buffer_size,
            max_send_message_size: self.max_send_message_size,
            max_receive_message_size: self.max_receive_message_size,
            max_num_outbound_streams: self.max_num_outbound_streams,
            max_num_inbound_streams: self.max_num_inbound_streams,
            local_port: self.local_port,
            remote_port: self.remote_port,
            profile: self.profile.raw(),
            rto_initial_ms: millis(self.rto_initial),
            rto_min_ms: millis(self.rto_min),
            rto_max_ms: millis(self.rto_max),
            max_init_retransmits: self.max_init_retransmits.unwrap_or(sys::SCTP_ASSOC_NO_LIMIT),
            max_data_retransmits: self.max_data_retransmits.unwrap_or(sys::SCTP_ASSOC_NO_LIMIT),
        }
    }
}

fn limit(raw: usize) -> Option<usize> {
    (raw != sys::SCTP_ASSOC_NO_LIMIT).then_some(raw)
}

fn millis(duration: Duration) -> u64 {
    u64::try_from(duration.as_millis()).unwrap_or(u64::MAX)
}

/// What names one side. Nobody else should be able to guess it.
#[derive(Clone, Debug, PartialEq, Eq)]
pub struct Identity {
    /// This side's verification tag (RFC 4960 section 8.5); a peer refuses 0.
    pub tag: u32,
    /// The first TSN, not 0.
    pub initial_tsn: u32,
    /// A server's State Cookie (RFC 4960 section 5.1.3).
    pub cookie: [u8; 32],
}

impl Identity {
    /// Draws an identity from the system's random source. No other call asks the system for anything but memory.
    ///
    /// # Errors
    ///
    /// `NoRandom`.
    pub fn random() -> Result<Identity, Error> {
        let raw = slot::random_identity()?;
        Ok(Identity { tag: raw.tag, initial_tsn: raw.initial_tsn, cookie: raw.cookie })
    }

    /// Makes an identity of bytes that come from a random source which nobody can guess.
    pub fn from_random(bytes: [u8; 40]) -> Identity {
        let word = |at: usize| u32::from_ne_bytes([bytes[at], bytes[at + 1], bytes[at + 2], bytes[at + 3]]).max(1);
        let mut cookie = [0; 32];
        cookie.copy_from_slice(&bytes[8..]);
        Identity { tag: word(0), initial_tsn: word(4), cookie }
    }

    pub(crate) fn raw(&self) -> sys::sctp_assoc_identity {
        sys::sctp_assoc_identity { tag: self.tag, initial_tsn: self.initial_tsn, cookie: self.cookie }
    }
}

/// What two sides that join without a handshake exchange in another way: the values of the INIT chunk that each would
/// send.
#[derive(Clone, Copy, Debug, PartialEq, Eq)]
pub struct Token {
    /// The verification tag.
    pub tag: u32,
    /// The first TSN.
    pub initial_tsn: u32,
    /// The receive window, in bytes.
    pub window: u32,
    /// Streams offered for sending.
    pub num_outbound_streams: u16,
    /// Streams offered for receiving.
    pub num_inbound_streams: u16,
    /// Whether its Supported Extensions list FORWARD TSN (RFC 3758 section 3.1).
    pub forward_tsn: bool,
}

impl Token {
    /// The token of a side with this configuration.
    pub fn new(config: &Config, tag: u32, initial_tsn: u32) -> Token {
        Token::of(&slot::make_token(&config.raw(), tag, initial_tsn))
    }

    /// The INIT chunk with these values (RFC 4960 section 3.3.2), as a client would send it, with its padding.
    ///
    /// # Errors
    ///
    /// `BadToken`.
    pub fn to_init(&self) -> Result<Vec<u8>, Error> {
        slot::token_to_init(&self.raw())
    }

    /// Reads a token out of the INIT chunk of a peer, with its padding or without. Of its parameters the Supported
    /// Extensions count alone; one that RFC 4960 doesn't know is passed over, or ends the reading, as its type says
    /// (section 3.2.1).
    ///
    /// # Errors
    ///
    /// `BadInit`, `BadToken`.
    pub fn from_init(init: &[u8]) -> Result<Token, Error> {
        Ok(Token::of(&slot::token_from_init(init)?))
    }

    fn of(raw: &sys::sctp_assoc_token) -> Token {
        Token {
            tag: raw.tag,
            initial_tsn: raw.initial_tsn,
            window: raw.window,
            num_outbound_streams: raw.num_outbound_streams,
            num_inbound_streams: raw.num_inbound_streams,
            forward_tsn: raw.forward_tsn,
        }
    }

    pub(crate) fn raw(&self) -> sys::sctp_assoc_token {
        sys::sctp_assoc_token {
            tag: self.tag,
            initial_tsn: self.initial_tsn,
            window: self.window,
            num_outbound_streams: self.num_outbound_streams,
            num_inbound_streams: self.num_inbound_streams,
            forward_tsn: self.forward_tsn,
        }
    }
}
