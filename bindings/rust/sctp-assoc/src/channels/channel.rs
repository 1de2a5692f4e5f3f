use super::{Error, Info, Message};
use crate::Association;

/// One channel of a [`Connection`](super::Connection), by its identifier. Each call of one that is not there answers
/// [`Error::NoChannel`].
#[derive(Debug)]
pub struct Channel<'a> {
    pub(super) association: &'a mut Association,
    pub(super) id: u16,
}

/// Messages, and the end.
impl Channel<'_> {
    /// The channel's identifier.
    pub fn id(&self) -> u16 {
        self.id
    }

    /// Accepts one text, which may be empty. It goes out with [`poll_transmit`](super::Connection::poll_transmit), as
    /// the windows allow; before the peer answered the OPEN it goes in order.
    ///
    /// # Errors
    ///
    /// `NoChannel`, `NotOpen`, and of [`Stream::write`](crate::Stream::write) `Failed`, `NoStream`, `StreamClosed`,
    /// `NotEstablished`, `ResetPending`, `MessageTooLong`; `NoMemory`.
    pub fn send_text(&mut self, text: &str) -> Result<(), Error> {
        self.association.slot.send(self.id, true, text.as_bytes())
    }

    /// Accepts one binary message, which may be empty. The rest is as of [`send_text`](Channel::send_text).
    ///
    /// # Errors
    ///
    /// Those of `send_text`.
    pub fn send_binary(&mut self, bytes: &[u8]) -> Result<(), Error> {
        self.association.slot.send(self.id, false, bytes)
    }

    /// Copies the next message, whole, to the front of the buffer. None if none is ready, and as long as the channel is
    /// not open. DCEP messages are dropped on the way; such a one may have changed the buffer, and be told as `NoRoom`,
    /// too. A second OPEN of the peer ends the channel.
    ///
    /// # Errors
    ///
    /// `NoRoom` if the buffer is shorter than the message, which stays; `NoChannel`; `Failed` of the association;
    /// `NoMemory`: the message stays, or the association failed; those of [`close`](Channel::close) if a second OPEN
    /// came.
    pub fn receive<'b>(&mut self, buffer: &'b mut [u8]) -> Result<Option<Message<&'b [u8]>>, Error> {
        let received = self.association.slot.receive(self.id, buffer)?;
        Ok(received.map(|(length, form)| Message::of(form, &buffer[..length])))
    }

    /// The same into a vector of the message's length.
    ///
    /// # Errors
    ///
    /// Those of [`receive`](Channel::receive) but `NoRoom`.
    pub fn receive_vec(&mut self) -> Result<Option<Message<Vec<u8>>>, Error> {
        let mut bytes = Vec::new();
        loop {
            match self.association.slot.receive(self.id, &mut bytes) {
                Err(Error::NoRoom { needed }) => bytes.resize(needed, 0), // each time more than before
                received => {
                    return Ok(received?.map(|(length, form)| {
                        bytes.truncate(length);
                        Message::of(form, bytes)
                    }))
                }
            }
        }
    }

    /// Ends the channel: its stream is reset (RFC 8831 section 6.7), after what was accepted went out. Messages that
    /// came are not received any more, nor is what the peer still sends: by [`Profile::Rfc`](crate::Profile::Rfc) it is
    /// dropped and takes no room in the receive buffer, as [`Stream::stop`](crate::Stream::stop) says.
    /// [`Event::Closed`](super::Event::Closed) tells the end. A channel whose OPEN was not written yet is gone at once,
    /// and nothing is told; one that ends goes on to.
    ///
    /// # Errors
    ///
    /// `NoChannel`, and of [`Stream::close`](crate::Stream::close) `Failed`, `NoStream`, `CannotReset`; `NoMemory`: the
    /// channel stays as it is, or the association failed.
    pub fn close(&mut self) -> Result<(), Error> {
        self.association.slot.close_channel(self.id)
    }
}

/// Questions, which change nothing, and the threshold.
impl Channel<'_> {
    /// What the channel is.
    ///
    /// # Errors
    ///
    /// `NoChannel`.
    pub fn info(&self) -> Result<Info, Error> {
        Ok(Info::of(&self.association.slot.channel_info(self.id)?))
    }

    /// Its label. If the channel is the peer's, that wrote it, and may have written anything.
    ///
    /// # Errors
    ///
    /// `NoChannel`; `NotUtf8`: [`label_bytes`](Channel::label_bytes) has what the peer wrote.
    pub fn label(&self) -> Result<String, Error> {
        text_of(self.label_bytes()?)
    }

    /// The bytes of its label.
    ///
    /// # Errors
    ///
    /// `NoChannel`.
    pub fn label_bytes(&self) -> Result<Vec<u8>, Error> {
        let slot = &self.association.slot;
        let mut label = vec![0; slot.channel_info(self.id)?.label_length.into()];
        slot.channel_label(self.id, &mut label)?;
        Ok(label)
    }

    /// Its protocol, of which the same holds as of the [`label`](Channel::label).
    ///
    /// # Errors
    ///
    /// `NoChannel`; `NotUtf8`: [`protocol_bytes`](Channel::protocol_bytes) has what the peer wrote.
    pub fn protocol(&self) -> Result<String, Error> {
        text_of(self.protocol_bytes()?)
    }

    /// The bytes of its protocol.
    ///
    /// # Errors
    ///
    /// `NoChannel`.
    pub fn protocol_bytes(&self) -> Result<Vec<u8>, Error> {
        let slot = &self.association.slot;
        let mut protocol = vec![0; slot.channel_info(self.id)?.protocol_length.into()];
        slot.channel_protocol(self.id, &mut protocol)?;
        Ok(protocol)
    }

    /// The buffered amount: bytes that were accepted on the channel's stream, those of DCEP messages too, and are
    /// neither acknowledged nor given up.
    ///
    /// # Errors
    ///
    /// `NoChannel`, and of the association `Failed`, and `NoStream` if the channel's stream is not opened yet.
    pub fn buffered_amount(&self) -> Result<usize, Error> {
        self.association.slot.channel_buffered_amount(self.id)
    }

    /// The low threshold of the buffered amount, in bytes, at first 0: if the amount falls from above it to it or
    /// below, [`Event::BufferedLow`](super::Event::BufferedLow) tells that.
    ///
    /// # Errors
    ///
    /// Those of [`buffered_amount`](Channel::buffered_amount).
    pub fn low_threshold(&self) -> Result<usize, Error> {
        self.association.slot.low_threshold(self.id)
    }

    /// Sets it. That by itself is not told.
    ///
    /// # Errors
    ///
    /// Those of [`buffered_amount`](Channel::buffered_amount).
    pub fn set_low_threshold(&mut self, bytes: usize) -> Result<(), Error> {
        self.association.slot.set_low_threshold(self.id, bytes)
    }
}

fn text_of(bytes: Vec<u8>) -> Result<String, Error> {
    String::from_utf8(bytes).map_err(|_| Error::NotUtf8)
}
