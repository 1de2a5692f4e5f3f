//! The C calls of channels as safe ones, on the slot that holds an association and its channels. No file of this crate
//! but this and that of the slot has unsafe code.
//!
//! What the C calls ask for holds of each call here, as the head of that file says, and a slot whose channels were not
//! begun they refuse. Which calls of an association are left to channels C owes for what the calls do, and not for that
//! they are safe.
use super::error::{done, done_or_nothing, Error};
use super::kind::Form;
use crate::slot::Slot;
use sctp_assoc_sys as sys;
use sys::{sctp_assoc_code, sctp_peer};

/// Channels begin and end.
impl Slot {
    pub(super) fn begin_channels(&mut self, role: u32) -> Result<(), Error> {
        // SAFETY: as the file's head says.
        done(unsafe { sys::sctp_channels_begin(self.peer(), role) })
    }

    /// The identifier of the channel.
    pub(super) fn open_channel(
        &mut self,
        options: &sys::sctp_channels_options,
        label: &[u8],
        protocol: &[u8],
    ) -> Result<u16, Error> {
        let mut id = 0;
        let (peer, label_at, protocol_at) = (self.peer(), label.as_ptr(), protocol.as_ptr());
        // SAFETY: as the file's head says.
        done(unsafe {
            sys::sctp_channels_open(peer, options, label_at, label.len(), protocol_at, protocol.len(), &mut id)
        })?;
        Ok(id)
    }

    pub(super) fn close_channel(&mut self, id: u16) -> Result<(), Error> {
        // SAFETY: as the file's head says.
        done(unsafe { sys::sctp_channels_close(self.peer(), id) })
    }

    pub(super) fn poll_channel_event(&mut self) -> Result<Option<sys::sctp_channels_event>, Error> {
        let mut event = sys::sctp_channels_event::default();
        // SAFETY: as the file's head says.
        let code = unsafe { sys::sctp_channels_poll_event(self.peer(), &mut event) };
        Ok(done_or_nothing(code, 0)?.then_some(event))
    }
}

/// Messages.
impl Slot {
    pub(super) fn set_max_message_size(&mut self, bytes: u32) {
        // SAFETY: as the file's head says. It refuses an empty slot alone.
        unsafe { sys::sctp_channels_set_max_message_size(self.peer(), bytes) };
    }

    pub(super) fn send(&mut self, id: u16, is_text: bool, message: &[u8]) -> Result<(), Error> {
        // SAFETY: as the file's head says.
        done(unsafe { sys::sctp_channels_send(self.peer(), id, is_text, message.as_ptr(), message.len()) })
    }

    /// The length of the message, which stands at the front of the buffer, and what it is.
    pub(super) fn receive(&mut self, id: u16, buffer: &mut [u8]) -> Result<Option<(usize, Form)>, Error> {
        let (mut length, mut is_text) = (0, false);
        let (at, room) = (buffer.as_mut_ptr(), buffer.len());
        // SAFETY: as the file's head says.
        let code = unsafe { sys::sctp_channels_receive(self.peer(), id, at, room, &mut length, &mut is_text) };
        if code == sys::SCTP_CHANNELS_OTHER {
            return Ok(Some((length, Form::Other)));
        }
        let form = if is_text { Form::Text } else { Form::Binary };
        Ok(done_or_nothing(code, length)?.then_some((length, form)))
    }
}

/// Questions about a channel, and its threshold.
impl Slot {
    pub(super) fn channel_info(&self, id: u16) -> Result<sys::sctp_channels_info, Error> {
        let mut info = sys::sctp_channels_info::default();
        // SAFETY: as the file's head says.
        done(unsafe { sys::sctp_channels_get_info(self.peer(), id, &mut info) })?;
        Ok(info)
    }

    /// The length of the label, which stands at the front of the buffer.
    pub(super) fn channel_label(&self, id: u16, buffer: &mut [u8]) -> Result<usize, Error> {
        let mut length = 0;
        let (at, room) = (buffer.as_mut_ptr(), buffer.len());
        // SAFETY: as the file's head says.
        done(unsafe { sys::sctp_channels_label(self.peer(), id, at, room, &mut length) })?;
        Ok(length)
    }

    /// The length of the protocol, which stands at the front of the buffer.
    pub(super) fn channel_protocol(&self, id: u16, buffer: &mut [u8]) -> Result<usize, Error> {
        let mut length = 0;
        let (at, room) = (buffer.as_mut_ptr(), buffer.len());
        // SAFETY: as the file's head says.
        done(unsafe { sys::sctp_channels_protocol(self.peer(), id, at, room, &mut length) })?;
        Ok(length)
    }

    pub(super) fn channel_buffered_amount(&self, id: u16) -> Result<usize, Error> {
        self.asked_of_channel(id, sys::sctp_channels_buffered_amount)
    }

    pub(super) fn low_threshold(&self, id: u16) -> Result<usize, Error> {
        self.asked_of_channel(id, sys::sctp_channels_low_threshold)
    }

    pub(super) fn set_low_threshold(&mut self, id: u16, bytes: usize) -> Result<(), Error> {
        // SAFETY: as the file's head says.
        done(unsafe { sys::sctp_channels_set_low_threshold(self.peer(), id, bytes) })
    }

    // What a question about a channel writes.
    fn asked_of_channel(
        &self,
        id: u16,
        question: unsafe extern "C" fn(*mut sctp_peer, u16, *mut usize) -> sctp_assoc_code,
    ) -> Result<usize, Error> {
        let mut answer = 0;
        // SAFETY: as the file's head says; the questions above are calls of the library.
        done(unsafe { question(self.peer(), id, &mut answer) })?;
        Ok(answer)
    }
}
