use crate::slot::Slot;
use crate::{
    Config, Direction, End, EndpointEvent, Error, Event, Identity, Metrics, Path, PayloadType, Stream, Token, Traffic,
};
use sctp_assoc_sys as sys;
use std::fmt;
use std::time::{Duration, Instant};

/// One association, without input or output: datagrams, moments and calls of the application go in; datagrams, events
/// and the next moment come out. The page of the crate shows the loop that drives it.
///
/// It has no thread and no state outside itself, and may go from one thread to another. A moment before that at which
/// it was made counts as that.
///
/// After a call that answers [`Error::NoMemory`] it may have failed: [`is_failed`](Association::is_failed) says so.
/// Then it is over, and the calls answer [`Error::Failed`].
pub struct Association {
    pub(crate) slot: Slot,
    began: Instant,
    observer: Option<Observer>,
}

type Observer = Box<dyn FnMut(Direction, Instant, &[u8]) + Send>;

/// What became of a datagram that came.
#[derive(Clone, Copy, Debug, PartialEq, Eq)]
#[non_exhaustive]
pub enum Fate {
    /// Its verification tag is accepted, and it went to the association.
    Taken,
    /// It is no SCTP packet, or its checksum is wrong. Nothing changed.
    NoPacket,
    /// Its verification tag is one that RFC 4960 section 8.5 refuses. Nothing changed.
    OtherTag,
    /// It is an INIT, the handshake is over, and it has the peer's initiate tag or is too short to have one. Nothing
    /// changed.
    RepeatedInit,
    /// It is an INIT, the handshake is over, and it has another initiate tag: the peer was started anew, or somebody
    /// else asks from its address (RFC 4960 section 5.2.2). Nothing changed.
    ///
    /// The association does not begin anew; a server beside it can answer. Hand that INIT to it, and then all that this
    /// association leaves by `OtherInit` or [`OtherTag`](Fate::OtherTag). Only [`Event::Connected`] of that server
    /// shows that the peer took part in the handshake, since an INIT can be forged: drop this association then, and not
    /// before.
    OtherInit,
}

/// What an association counted since it was made. A number that reaches `u64::MAX` stays there.
#[derive(Clone, Copy, Debug, Default, PartialEq, Eq)]
#[non_exhaustive]
pub struct Totals {
    /// DATA chunks that came, those too that were dropped.
    pub data_chunks: u64,
    /// SACK chunks that came.
    pub sacks: u64,
    /// How often the timer of retransmissions expired (RFC 4960 section 6.3.3).
    pub retransmission_timeouts: u64,
    /// How often the timer of delayed acknowledgements expired (RFC 4960 section 6.2).
    pub ack_timeouts: u64,
    /// DATA chunks that were sent again fast (RFC 4960 section 7.2.4).
    pub fast_retransmissions: u64,
}

impl Totals {
    pub(crate) fn of(told: &sys::sctp_assoc_totals) -> Totals {
        Totals {
            data_chunks: told.data_chunks,
            sacks: told.sacks,
            retransmission_timeouts: told.retransmission_timeouts,
            ack_timeouts: told.ack_timeouts,
            fast_retransmissions: told.fast_retransmissions,
        }
    }
}

impl Association {
    /// Makes a client, whose INIT waits for [`poll_transmit`](Association::poll_transmit).
    ///
    /// # Errors
    ///
    /// `BadPort`, `BadStreams`, `BadWindow`, `BadTag`, `BadTimeout`, `BadPayloadSize`, `BadInitialTsn`, `NoMemory`.
    pub fn client(config: &Config, identity: &Identity, now: Instant) -> Result<Association, Error> {
        let slot = Slot::client(&config.raw(), config.max_payload_size, &identity.raw())?;
        Ok(Association { slot, began: now, observer: None })
    }

    /// Makes a server, which waits for an INIT.
    ///
    /// # Errors
    ///
    /// `BadPort`, `BadStreams`, `BadWindow`, `BadTag`, `BadTimeout`, `BadPayloadSize`, `BadInitialTsn`, `NoMemory`.
    pub fn server(config: &Config, identity: &Identity, now: Instant) -> Result<Association, Error> {
        let slot = Slot::server(&config.raw(), config.max_payload_size, &identity.raw())?;
        Ok(Association { slot, began: now, observer: None })
    }

    /// Makes a side that is established at once, by both sides' tokens. [`Event::Connected`] waits.
    ///
    /// # Errors
    ///
    /// `BadPort`, `BadStreams`, `BadWindow`, `BadTimeout`, `BadPayloadSize`, `BadToken`, `NoMemory`.
    pub fn joined(config: &Config, local: &Token, remote: &Token, now: Instant) -> Result<Association, Error> {
        let slot = Slot::joined(&config.raw(), config.max_payload_size, &local.raw(), &remote.raw())?;
        Ok(Association { slot, began: now, observer: None })
    }

    // Nanoseconds since the association was made.
    fn nanos(&self, moment: Instant) -> u64 {
        u64::try_from(moment.saturating_duration_since(self.began).as_nanos()).unwrap_or(u64::MAX)
    }

    // The moment so many nanoseconds after that; None past the last one that there is.
    fn moment(&self, nanos: u64) -> Option<Instant> {
        self.began.checked_add(Duration::from_nanos(nanos))
    }

    /// Takes in one datagram that came at `now`: an SCTP packet from its common header on.
    ///
    /// # Errors
    ///
    /// `Failed`; `NoMemory`: all is as before, or the association failed.
    pub fn handle_datagram(&mut self, now: Instant, datagram: &[u8]) -> Result<Fate, Error> {
        Ok(match self.slot.handle_datagram(self.nanos(now), datagram)? {
            sys::SCTP_ASSOC_TAKEN => {
                self.tell(Direction::Received, now, datagram);
                Fate::Taken
            }
            sys::SCTP_ASSOC_OTHER_TAG => Fate::OtherTag,
            sys::SCTP_ASSOC_REPEATED_INIT => Fate::RepeatedInit,
            sys::SCTP_ASSOC_OTHER_INIT => Fate::OtherInit,
            _ => Fate::NoPacket,
        })
    }

    /// Copies the next datagram that is due at `now` to the front of the buffer. None if none is due: call it until
    /// then. It gives up the messages that are past their [`Reliability`](crate::Reliability), and may leave
    /// [`Event::BufferedAmountLow`] for that; and with the last datagram of a shutdown it leaves [`Event::Lost`].
    ///
    /// How long datagrams get, in bytes, rounded up to 4:
    ///
    /// - DATA: 28 and the payload;
    /// - COOKIE ECHO: 16 and the State Cookie that the peer's INIT ACK had;
    /// - SACK: 28 and 4 for each gap in what came (past 16,379 gaps none is sent);
    /// - RE-CONFIG: 32 and 2 for each stream of one request, which resets all streams that were closed here since the
    ///   last request was answered, or that the peer reset by one of its own;
    /// - FORWARD TSN: 20 and 4 for each ordered stream on which messages are given up (past 16,381 none is sent);
    /// - HEARTBEAT ACK: at most as long as the HEARTBEAT that came;
    /// - ABORT: 20 and the reason of [`abort`](Association::abort);
    /// - all others: up to 100.
    ///
    /// A buffer of [`MAX_DATAGRAM`](crate::MAX_DATAGRAM) bytes is always long enough. UDP carries up to 65,507 bytes,
    /// in fragments if that is more than the path takes; if it may not, close streams in groups, and wait for
    /// [`Event::ResetComplete`] of one group before the next. What cannot be sent counts as lost.
    ///
    /// # Errors
    ///
    /// `NoRoom` if the buffer is shorter than the datagram, which stays, with those after it; `Failed`; `NoMemory`: the
    /// association failed, and what was due is lost.
    pub fn poll_transmit<'b>(&mut self, now: Instant, buffer: &'b mut [u8]) -> Result<Option<&'b [u8]>, Error> {
        let Some(length) = self.slot.poll_transmit(self.nanos(now), buffer)? else { return Ok(None) };
        let datagram = &buffer[..length];
        self.tell(Direction::Sent, now, datagram);
        Ok(Some(datagram))
    }

    fn tell(&mut self, direction: Direction, now: Instant, datagram: &[u8]) {
        if let Some(observer) = &mut self.observer {
            observer(direction, now, datagram);
        }
    }

    /// From now on the observer is told of each datagram that [`poll_transmit`](Association::poll_transmit) gives, and
    /// of each that was handed in and [`Taken`](Fate::Taken), once it was, such as to write a capture. It takes the
    /// place of an earlier one.
    pub fn observe(&mut self, observer: impl FnMut(Direction, Instant, &[u8]) + Send + 'static) {
        self.observer = Some(Box::new(observer));
    }

    /// The moment at which the next timer expires; None if no timer runs. If it is not after now,
    /// [`handle_timeout`](Association::handle_timeout) is due.
    pub fn poll_timeout(&self) -> Option<Instant> {
        self.moment(self.slot.poll_timeout()?)
    }

    /// Does what the timers that expired by `now` ask for, and nothing if none did. By
    /// [`Profile::Rfc`](crate::Profile::Rfc) a peer that is silent for good ends the association here:
    /// [`Event::Lost`] tells it, and [`end`](Association::end) says [`End::Silent`](crate::End::Silent).
    ///
    /// # Errors
    ///
    /// `Failed`; `NoMemory`: the association failed.
    pub fn handle_timeout(&mut self, now: Instant) -> Result<(), Error> {
        self.slot.handle_timeout(self.nanos(now))
    }

    /// Takes out the oldest event. None if none waits.
    ///
    /// # Errors
    ///
    /// `Failed`.
    pub fn poll_event(&mut self) -> Result<Option<Event>, Error> {
        Ok(self.slot.poll_event()?.map(|told| Event::of(&told)))
    }

    /// What whoever keeps this association is to be told, once: that its end has begun. All is over only once
    /// [`is_drained`](Association::is_drained) says so. None if nothing is to be told. Nobody has to ask.
    pub fn poll_endpoint_event(&mut self) -> Option<EndpointEvent> {
        self.slot.poll_endpoint_event().then_some(EndpointEvent::Drained)
    }

    /// Begins to end the association gracefully (RFC 4960 section 9.2), and returns at once. From now on writes are
    /// refused by `NotEstablished`, stops of streams by `CannotReset`. What was accepted is still sent, and messages
    /// of the peer still come. Go on with the loop: once all messages of both sides are acknowledged the association
    /// closes, at the peer, too, and [`Event::Lost`] tells it with [`Reason::Closed`](crate::Reason::Closed). Read what
    /// comes at once: unread messages are gone then. The loop is over once [`is_drained`](Association::is_drained) says
    /// so and `poll_transmit` gives None.
    ///
    /// A peer that is gone is waited for without a limit, as it may have much to send. A side that closed may answer
    /// nothing any more, even if the last datagram that it sent is lost. So wait for a bounded time, and
    /// [`close`](Association::close) then.
    ///
    /// # Errors
    ///
    /// `Failed`; `ShutdownNotEstablished`, also if either side has begun a shutdown.
    pub fn shutdown(&mut self) -> Result<(), Error> {
        self.slot.shutdown()
    }

    /// Asks the peer whether it is there: a HEARTBEAT waits to go out behind the datagrams that wait (RFC 4960 section
    /// 8.3). A peer that is there answers within a round trip by a datagram that is [`Fate::Taken`] and changes nothing
    /// else. No timer runs for it, and it is not sent again. By [`Profile::Port`](crate::Profile::Port) nothing goes
    /// out, as the answer would end the association.
    ///
    /// # Errors
    ///
    /// `Failed`; `NotEstablished`; `NoMemory`, with nothing changed.
    pub fn heartbeat(&mut self, now: Instant) -> Result<(), Error> {
        let now = self.nanos(now);
        self.slot.heartbeat(now)
    }

    /// Closes the association at once. The peer is told nothing, and each stream ends. A datagram that waits, and a
    /// message that did not fit a buffer, can still be taken.
    ///
    /// # Errors
    ///
    /// `Failed`; `NoMemory`: the association failed.
    pub fn close(&mut self) -> Result<(), Error> {
        self.slot.close()
    }

    /// Closes the association at once, as [`close`](Association::close) does, and tells the peer by an ABORT (RFC 4960
    /// section 9.1), which waits for [`poll_transmit`](Association::poll_transmit) behind the datagrams that wait
    /// already. The reason stands in its cause User-Initiated Abort: text for people, of up to 65,527 bytes, and best
    /// so short that the path takes it. A closed association stays as it is, and before the peer has answered the
    /// handshake nobody is told. The ABORT is not repeated: if it is lost, the peer learns nothing of the end.
    ///
    /// # Errors
    ///
    /// `Failed`; `MessageTooLong`; `NoMemory`: nothing changed, or the association failed.
    pub fn abort(&mut self, reason: &[u8]) -> Result<(), Error> {
        self.slot.abort(reason)
    }

    /// Why the association ended; None as long as it has not.
    pub fn end(&self) -> Option<End> {
        End::of(self.slot.watch())
    }

    /// The datagrams that went through the association since it was made.
    pub fn traffic(&self) -> Traffic {
        Traffic::of(self.slot.watch())
    }

    /// What is known of the path to the peer. Of a closed or failed association it is what was known last.
    pub fn path(&self) -> Path {
        Path::of(&self.slot.path())
    }

    /// Whether messages can be written: the state is Established (RFC 4960 section 4).
    pub fn is_established(&self) -> bool {
        self.slot.is_established()
    }

    /// Whether a shutdown has begun, at either side, and the association is not closed yet (RFC 4960 section 9.2).
    pub fn is_closing(&self) -> bool {
        self.slot.is_closing()
    }

    /// Whether the state is Closed: that of a server before its handshake, and of any side after a loss.
    pub fn is_closed(&self) -> bool {
        self.slot.is_closed()
    }

    /// Whether the association was lost: by a fault, by [`close`](Association::close) or
    /// [`abort`](Association::abort), or at the end of a shutdown. Nothing is left then but the datagrams, events and
    /// messages that wait.
    pub fn is_drained(&self) -> bool {
        self.slot.is_drained()
    }

    /// Whether an earlier call found no memory in its middle, so that the association is over.
    pub fn is_failed(&self) -> bool {
        self.slot.is_failed()
    }

    /// What the association counted. A failed one can be asked too.
    pub fn stats(&self) -> Totals {
        Totals::of(&self.slot.stats())
    }

    /// The retransmission timeout (RFC 4960 section 6.3.1), in whole milliseconds. A failed association can be asked
    /// too.
    pub fn rto(&self) -> Duration {
        Duration::from_millis(self.slot.rto())
    }

    /// The numbers of the association at once: the path and the retransmission timeout, what was counted, the state and
    /// the next timer. A failed association can be asked too.
    pub fn metrics(&self) -> Metrics {
        let told = self.slot.metrics();
        Metrics::of(&told, told.timer_runs.then_some(told.next_timeout).and_then(|nanos| self.moment(nanos)))
    }

    /// The identifiers of the streams, ascending: those that this side opened, and those that the peer did.
    ///
    /// # Errors
    ///
    /// `Failed`, `NoMemory`.
    pub fn stream_ids(&self) -> Result<Vec<u16>, Error> {
        let mut ids = Vec::new();
        match self.slot.stream_ids(&mut ids) {
            Err(Error::NoRoom { needed }) => {
                ids.resize(needed, 0);
                self.slot.stream_ids(&mut ids)?;
            }
            answer => drop(answer?),
        }
        Ok(ids)
    }

    /// From now on writes of all streams take messages of up to so many bytes, at 0 none; what was accepted stays. At
    /// first this is `max_send_message_size` of the configuration. In a failed association nothing changes.
    pub fn set_max_send_message_size(&mut self, bytes: u32) {
        self.slot.set_max_send_message_size(bytes);
    }

    /// Makes a stream on this side. What is written on it carries this payload type unless a write names one. Nothing
    /// is sent for it: the peer sees the stream by its first message, as [`Event::Opened`] says.
    ///
    /// # Errors
    ///
    /// `Failed`, `StreamExists` (also if the peer opened it), `ResetPending`, `NoStreamLeft`, `NoMemory`.
    pub fn open_stream(&mut self, id: u16, payload_type: PayloadType) -> Result<Stream<'_>, Error> {
        self.slot.open_stream(id, payload_type.number())?;
        Ok(self.stream(id))
    }

    /// Takes out the oldest stream that the peer opened and that was not accepted yet. A stream needs no accepting to
    /// be read or written, but its identifier waits here, in two bytes, each time that the peer opens it: so call this
    /// at each [`Event::Opened`], even if the answer is of no use.
    pub fn accept_stream(&mut self) -> Option<Stream<'_>> {
        let id = self.slot.accept_stream()?;
        Some(self.stream(id))
    }

    /// The stream with this identifier, whether or not there is one: its calls say so.
    pub fn stream(&mut self, id: u16) -> Stream<'_> {
        Stream { association: self, id }
    }
}

impl fmt::Debug for Association {
    fn fmt(&self, f: &mut fmt::Formatter<'_>) -> fmt::Result {
        f.debug_struct("Association")
            .field("established", &self.is_established())
            .field("closing", &self.is_closing())
            .field("closed", &self.is_closed())
            .field("failed", &self.is_failed())
            .finish_non_exhaustive()
    }
}
