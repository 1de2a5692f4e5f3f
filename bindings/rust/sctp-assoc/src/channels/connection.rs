use super::{Channel, Error, Event, Kind, Role};
use crate::{Association, End, Fate, Metrics, Reason};
use std::time::Instant;

/// An association and its data channels.
///
/// A channel is named by the identifier of its stream, 0 to 65,534, and [`channel`](Connection::channel) lends it. The
/// calls of the loop and of the end are the association's, under the same names. What they are refused for is
/// [`Error::Association`], but for `NoMemory` and `NoRoom`, which are here, too.
#[derive(Debug)]
pub struct Connection {
    association: Association,
}

/// Channels, and the events of them.
impl Connection {
    /// Takes an association, which need not be established yet, and begins its channels, of which there is none so far.
    /// Leave its events to this: what was told before is not told again.
    ///
    /// # Errors
    ///
    /// `NoMemory`: the association is dropped, and its peer is told nothing.
    pub fn new(mut association: Association, role: Role) -> Result<Connection, Error> {
        association.slot.begin_channels(role.number())?;
        Ok(Connection { association })
    }

    /// Makes a channel of this side, and answers its identifier: the one that was negotiated, or else the least of this
    /// side's that no channel has. The association need not be established yet. The channel's OPEN is written, or its
    /// stream opened if it is negotiated, by the next [`poll_event`](Connection::poll_event) of an established one;
    /// from then on it can be sent on. The protocol is one that is registered for WebSocket, or empty.
    ///
    /// Identifiers stop at the streams on which this side may send: before the handshake has agreed on their number, at
    /// as many as this side offers. [`Event::Failed`] tells of a channel that lies past those that were agreed on.
    ///
    /// # Errors
    ///
    /// `LabelTooLong`; `Failed` of the association; `Lost`; `IdentifierTaken`, `IdentifierPastStreams`,
    /// `NoIdentifierLeft`; `NoMemory`.
    pub fn open(&mut self, label: &str, protocol: &str, kind: &Kind) -> Result<u16, Error> {
        self.association.slot.open_channel(&kind.raw(), label.as_bytes(), protocol.as_bytes())
    }

    /// The channel with this identifier, whether or not there is one: its calls say so.
    pub fn channel(&mut self, id: u16) -> Channel<'_> {
        Channel { association: &mut self.association, id }
    }

    /// Takes out the next event; None if none waits. It takes the events of the association, in place of
    /// [`Association::poll_event`] and [`Association::accept_stream`]. On the way it writes the OPENs that wait, reads
    /// the first messages of streams, and writes ACKs.
    ///
    /// # Errors
    ///
    /// `Failed` of the association; `NoMemory`: call it again, and it goes on where it was, or the association failed.
    pub fn poll_event(&mut self) -> Result<Option<Event>, Error> {
        let event = self.association.slot.poll_channel_event()?.map(|told| Event::of(&told));
        if event == Some(Event::Lost { reason: Reason::BufferExhausted }) {
            self.association.slot.note_exhausted();
        }
        Ok(event)
    }

    /// Sets how long a message to the peer may be, in bytes, by the attribute max-message-size of its session
    /// description: None if it has none, which is 65,536, and 0 for any length (RFC 8841 section 6). In a failed
    /// association nothing changes.
    pub fn set_max_message_size(&mut self, bytes: Option<u32>) {
        self.association.slot.set_max_message_size(bytes.unwrap_or(65_536));
    }
}

/// The loop and the end, as of the association.
impl Connection {
    /// Takes in one datagram that came at `now`, as [`Association::handle_datagram`] says.
    ///
    /// # Errors
    ///
    /// Those of that call.
    pub fn handle_datagram(&mut self, now: Instant, datagram: &[u8]) -> Result<Fate, Error> {
        Ok(self.association.handle_datagram(now, datagram)?)
    }

    /// Copies the next datagram that is due at `now` to the front of the buffer, as [`Association::poll_transmit`]
    /// says, which tells how long datagrams get.
    ///
    /// # Errors
    ///
    /// Those of that call.
    pub fn poll_transmit<'b>(&mut self, now: Instant, buffer: &'b mut [u8]) -> Result<Option<&'b [u8]>, Error> {
        Ok(self.association.poll_transmit(now, buffer)?)
    }

    /// The moment at which the next timer expires, as [`Association::poll_timeout`] says.
    pub fn poll_timeout(&self) -> Option<Instant> {
        self.association.poll_timeout()
    }

    /// Does what the timers that expired by `now` ask for, as [`Association::handle_timeout`] says.
    ///
    /// # Errors
    ///
    /// Those of that call.
    pub fn handle_timeout(&mut self, now: Instant) -> Result<(), Error> {
        Ok(self.association.handle_timeout(now)?)
    }

    /// Whether messages can be sent on channels that are open, as [`Association::is_established`] says.
    pub fn is_established(&self) -> bool {
        self.association.is_established()
    }

    /// Whether the association was lost, as [`Association::is_drained`] says.
    pub fn is_drained(&self) -> bool {
        self.association.is_drained()
    }

    /// Begins to end the association gracefully, and all channels with it, as [`Association::shutdown`] says. Receive
    /// what still comes at once: [`Event::Lost`] leaves no channel.
    ///
    /// # Errors
    ///
    /// Those of that call.
    pub fn shutdown(&mut self) -> Result<(), Error> {
        Ok(self.association.shutdown()?)
    }

    /// Closes the association at once and tells the peer why, as [`Association::abort`] says, and ends all channels.
    ///
    /// # Errors
    ///
    /// Those of that call.
    pub fn abort(&mut self, reason: &[u8]) -> Result<(), Error> {
        Ok(self.association.abort(reason)?)
    }

    /// Closes the association at once, as [`Association::close`] says, and ends all channels. [`Channel::close`] ends
    /// one of them.
    ///
    /// # Errors
    ///
    /// Those of that call.
    pub fn close(&mut self) -> Result<(), Error> {
        Ok(self.association.close()?)
    }

    /// Why the association ended, as [`Association::end`] says; None as long as it has not.
    pub fn end(&self) -> Option<End> {
        self.association.end()
    }

    /// The numbers of the association at once, as [`Association::metrics`] says.
    pub fn metrics(&self) -> Metrics {
        self.association.metrics()
    }
}

/// The association.
impl Connection {
    /// The association, for all other questions.
    pub fn association(&self) -> &Association {
        &self.association
    }

    /// The association, for its calls that are not here, such as [`observe`](Association::observe), and for streams
    /// without a channel. Left to channels are [`poll_event`](Association::poll_event) and
    /// [`accept_stream`](Association::accept_stream), and of a stream that has a channel all reads, writes and ends. Put
    /// no other association in its place: the channels are its own.
    pub fn association_mut(&mut self) -> &mut Association {
        &mut self.association
    }
}
