use crate::{Association, Counters, Error, PayloadType, Reliability};
use sctp_assoc_sys as sys;

/// One stream of an association, by its identifier. Each call of one that is not there answers [`Error::NoStream`].
#[derive(Debug)]
pub struct Stream<'a> {
    pub(crate) association: &'a mut Association,
    pub(crate) id: u16,
}

/// A message that was read.
#[derive(Clone, Copy, Debug, PartialEq, Eq)]
#[non_exhaustive]
pub struct Message<'b> {
    /// Its payload type.
    pub payload_type: PayloadType,
    /// Its bytes, whole.
    pub bytes: &'b [u8],
}

impl Stream<'_> {
    /// The stream's identifier.
    pub fn id(&self) -> u16 {
        self.id
    }

    /// Accepts one message under the payload type that the stream was opened with. It goes out with
    /// [`poll_transmit`](Association::poll_transmit), as the windows allow.
    ///
    /// # Errors
    ///
    /// `Failed`, `NoStream`, `StreamClosed`, `NotEstablished`, `ResetPending`, `EmptyMessage`, `MessageTooLong`,
    /// `NoMemory`.
    pub fn write(&mut self, message: &[u8]) -> Result<(), Error> {
        self.association.slot.write(self.id, sys::SCTP_ASSOC_PPID_OF_STREAM, message)
    }

    /// The same under another payload type.
    ///
    /// # Errors
    ///
    /// Those of [`write`](Stream::write).
    pub fn write_as(&mut self, payload_type: PayloadType, message: &[u8]) -> Result<(), Error> {
        self.association.slot.write(self.id, payload_type.number(), message)
    }

    /// Copies the next message to the front of the buffer. None if none is ready. If the peer ended its half, the
    /// stream may end with its last message, and the next read answers `NoStream`.
    ///
    /// By [`Profile::Rfc`](crate::Profile::Rfc) a read that opens the receive window, also one that answers `NoRoom`,
    /// makes an acknowledgement due at once, for which the peer may wait: so call
    /// [`poll_transmit`](Association::poll_transmit) after reads. The window is open if 2 * (`max_payload_size` + 28)
    /// bytes may come, two packets, or half of `max_receive_buffer_size` if that is less.
    ///
    /// # Errors
    ///
    /// `NoRoom` if the buffer is shorter than the message, which stays; `Failed`, `NoStream`, `StreamClosed`;
    /// `NoMemory`: the message stays, or the association failed.
    pub fn read<'b>(&mut self, buffer: &'b mut [u8]) -> Result<Option<Message<'b>>, Error> {
        let read = self.association.slot.read(self.id, buffer)?;
        Ok(read.map(|(length, number)| Message { payload_type: PayloadType::of(number), bytes: &buffer[..length] }))
    }

    /// The same into a vector of the message's length.
    ///
    /// # Errors
    ///
    /// Those of [`read`](Stream::read) but `NoRoom`.
    pub fn read_vec(&mut self) -> Result<Option<(PayloadType, Vec<u8>)>, Error> {
        let needed = match self.read(&mut []) {
            Err(Error::NoRoom { needed }) => needed,
            Err(error) => return Err(error),
            Ok(empty) => return Ok(empty.map(|message| (message.payload_type, Vec::new()))),
        };
        let mut bytes = vec![0; needed];
        let payload_type = self.read(&mut bytes)?.map(|message| message.payload_type);
        Ok(payload_type.map(|payload_type| (payload_type, bytes)))
    }

    /// The length of the next message, 1 or more; None if none is ready. The message stays, and a
    /// [`read`](Stream::read) into that many bytes gives it. Messages of length 0, which come only from a peer that
    /// sends DATA without a byte, are dropped on the way.
    ///
    /// This leaves what a read leaves that answers `NoRoom`: the message is out of the receive buffer. So it counts as
    /// read ([`stats`](Stream::stats)), and an acknowledgement may be due as behind a read: call
    /// [`poll_transmit`](Association::poll_transmit) after it. If it is the last one of a stream that the peer ended,
    /// that end is told before it is read. It can be read after a loss, too; [`stop`](Stream::stop) drops it. To ask
    /// again changes nothing.
    ///
    /// # Errors
    ///
    /// `Failed`, `NoStream`, `StreamClosed`; `NoMemory`: the message stays, or the association failed.
    pub fn next_length(&mut self) -> Result<Option<usize>, Error> {
        self.association.slot.next_length(self.id)
    }

    /// Closes the write half. What was accepted goes out as before, and the peer is not told.
    ///
    /// # Errors
    ///
    /// `Failed`, `NoStream`.
    pub fn finish(&mut self) -> Result<(), Error> {
        self.association.slot.finish(self.id)
    }

    /// Closes the read half and asks for a reset of the stream (RFC 6525, RFC 8831 section 6.7). What was accepted goes
    /// out first; then the peer is asked to reset its half, too. Nothing can be read or written any more, and a message
    /// that did not fit a buffer is dropped. [`Event::StreamEnded`](crate::Event::StreamEnded),
    /// [`Event::Finished`](crate::Event::Finished) and [`Event::ResetComplete`](crate::Event::ResetComplete) tell the
    /// end, at the peer, too. If the peer reset the stream and it is not read to its end, what came of it is dropped,
    /// also of its next use, which may open the receive window as a [`read`](Stream::read) does. If the read half is
    /// closed already, nothing changes.
    ///
    /// By [`Profile::Rfc`](crate::Profile::Rfc) all that is unread of the stream is so dropped, and what still comes of
    /// it until it ends is acknowledged and dropped, too: so none of it takes room in the receive buffer, however much
    /// is under way. If the peer reset the stream and DATA of its next use came, that use is reset, too, and told as
    /// ended once more. By [`Profile::Port`](crate::Profile::Port) what is unread takes room until the stream ends, and
    /// may leave the buffer exhausted, which ends the association.
    ///
    /// # Errors
    ///
    /// `Failed`, `NoStream`, `CannotReset`; `NoMemory`: the association failed.
    pub fn stop(&mut self) -> Result<(), Error> {
        self.association.slot.stop(self.id)
    }

    /// Closes both halves: first as [`finish`](Stream::finish), and then as [`stop`](Stream::stop) does, which says
    /// what becomes of what is unread or under way.
    ///
    /// # Errors
    ///
    /// Those of `stop`.
    pub fn close(&mut self) -> Result<(), Error> {
        self.association.slot.close_stream(self.id)
    }

    /// Sets how messages are sent that are written from now on: in order or not, and how long they are sent again. A
    /// message past that is given up whole by [`poll_transmit`](Association::poll_transmit), and the peer reads all of
    /// it or nothing; no timer runs for it. If the peer does not list FORWARD TSN (RFC 3758), none is given up, and
    /// messages under [`PayloadType::Dcep`] never are.
    ///
    /// # Errors
    ///
    /// `Failed`, `NoStream`.
    pub fn set_reliability(&mut self, unordered: bool, reliability: Reliability) -> Result<(), Error> {
        let (kind, value) = reliability.raw();
        self.association.slot.set_reliability(self.id, unordered, kind, value)
    }

    /// The payload type of messages whose write names none: that with which the stream was opened, and `Unknown` if
    /// the peer opened it.
    ///
    /// # Errors
    ///
    /// `Failed`, `NoStream`.
    pub fn payload_type(&self) -> Result<PayloadType, Error> {
        Ok(PayloadType::of(self.association.slot.payload_type(self.id)?))
    }

    /// Sets it for messages that are written from now on.
    ///
    /// # Errors
    ///
    /// `Failed`, `NoStream`.
    pub fn set_payload_type(&mut self, payload_type: PayloadType) -> Result<(), Error> {
        self.association.slot.set_payload_type(self.id, payload_type.number())
    }

    /// What the stream counted since it was opened. A message that waits for a longer buffer counts as read.
    ///
    /// # Errors
    ///
    /// `Failed`, `NoStream`.
    pub fn stats(&self) -> Result<Counters, Error> {
        Ok(Counters::of(&self.association.slot.stream_stats(self.id)?))
    }

    /// The buffered amount: bytes that were accepted and are neither acknowledged nor given up.
    ///
    /// # Errors
    ///
    /// `Failed`, `NoStream`.
    pub fn buffered_amount(&self) -> Result<usize, Error> {
        self.association.slot.buffered_amount(self.id)
    }

    /// The low mark, in bytes, at first 0: if an acknowledgement, or what a poll gives up, takes the buffered amount
    /// from above it to it or below, that is told as
    /// [`Event::BufferedAmountLow`](crate::Event::BufferedAmountLow).
    ///
    /// # Errors
    ///
    /// `Failed`, `NoStream`.
    pub fn low_mark(&self) -> Result<usize, Error> {
        self.association.slot.low_mark(self.id)
    }

    /// Sets the low mark. That by itself is not told.
    ///
    /// # Errors
    ///
    /// `Failed`, `NoStream`.
    pub fn set_low_mark(&mut self, bytes: usize) -> Result<(), Error> {
        self.association.slot.set_low_mark(self.id, bytes)
    }

    /// The high mark, in bytes, at first `usize::MAX`: a write that takes the buffered amount from below it to it or
    /// above is told as [`Event::BufferedAmountHigh`](crate::Event::BufferedAmountHigh).
    ///
    /// # Errors
    ///
    /// `Failed`, `NoStream`.
    pub fn high_mark(&self) -> Result<usize, Error> {
        self.association.slot.high_mark(self.id)
    }

    /// Sets the high mark. That by itself is not told.
    ///
    /// # Errors
    ///
    /// `Failed`, `NoStream`.
    pub fn set_high_mark(&mut self, bytes: usize) -> Result<(), Error> {
        self.association.slot.set_high_mark(self.id, bytes)
    }
}
