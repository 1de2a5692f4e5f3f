//! The C calls as safe ones. No other file of this crate has unsafe code, but that of the calls of channels.
//!
//! What the C calls ask for holds of each call here. Pointers are made of references, so that they lead to what their
//! types say; with slices go their lengths. A slot that is made holds an association, until it is dropped. Calls that
//! ask a question may write to the slot, too: `Slot` is not `Sync`, so no two calls on it run at a time.
//!
//! With the feature `channels` a slot has room for channels beside the association: none, until they are begun.
use crate::error::{done, done_or_nothing, Error};
use sctp_assoc_sys as sys;
use std::cell::UnsafeCell;
use sys::{sctp_assoc, sctp_assoc_code, sctp_assoc_watch};

// What a slot holds, and the call that frees it.
#[cfg(not(feature = "channels"))]
use sys::{sctp_assoc as Held, sctp_assoc_free as free};
#[cfg(feature = "channels")]
use sys::{sctp_peer as Held, sctp_peer_free as free};

type Made = Result<Slot, Error>;

/// A slot with an association, and its watch.
pub(crate) struct Slot {
    held: UnsafeCell<Held>,
    watch: sctp_assoc_watch,
}

// SAFETY: the library keeps nothing but in the slot, and may be called from any thread, one call at a time. A heap that
// the program sets beside it is for every thread, which whoever sets one owes.
unsafe impl Send for Slot {}

impl Drop for Slot {
    fn drop(&mut self) {
        // SAFETY: as the file's head says; nobody uses the slot any more. One that was not made is empty, which is
        // answered.
        unsafe { free(self.held.get()) };
    }
}

pub(crate) fn default_config() -> sys::sctp_assoc_config {
    let mut config = sys::sctp_assoc_config::default();
    // SAFETY: as the file's head says.
    unsafe { sys::sctp_assoc_default_config(&mut config) };
    config
}

pub(crate) fn random_identity() -> Result<sys::sctp_assoc_identity, Error> {
    let mut identity = sys::sctp_assoc_identity::default();
    // SAFETY: as the file's head says.
    done(unsafe { sys::sctp_assoc_random_identity(&mut identity) })?;
    Ok(identity)
}

pub(crate) fn make_token(config: &sys::sctp_assoc_config, tag: u32, initial_tsn: u32) -> sys::sctp_assoc_token {
    let mut token = sys::sctp_assoc_token::default();
    // SAFETY: as the file's head says.
    unsafe { sys::sctp_assoc_make_token(config, tag, initial_tsn, &mut token) };
    token
}

/// The INIT chunk of a token.
pub(crate) fn token_to_init(token: &sys::sctp_assoc_token) -> Result<Vec<u8>, Error> {
    let (mut init, mut length) = (vec![0; sys::SCTP_ASSOC_MAX_INIT], 0);
    // SAFETY: as the file's head says.
    done(unsafe { sys::sctp_assoc_token_to_init(token, init.as_mut_ptr(), init.len(), &mut length) })?;
    init.truncate(length);
    Ok(init)
}

pub(crate) fn token_from_init(init: &[u8]) -> Result<sys::sctp_assoc_token, Error> {
    let mut token = sys::sctp_assoc_token::default();
    // SAFETY: as the file's head says.
    done(unsafe { sys::sctp_assoc_token_from_init(init.as_ptr(), init.len(), &mut token) })?;
    Ok(token)
}

/// How an association is made.
impl Slot {
    pub(crate) fn client(config: &sys::sctp_assoc_config, size: u32, identity: &sys::sctp_assoc_identity) -> Made {
        // SAFETY: as the file's head says; the slot is empty.
        Slot::made(|slot| unsafe { sys::sctp_assoc_client(slot, config, size, identity, 0) })
    }

    pub(crate) fn server(config: &sys::sctp_assoc_config, size: u32, identity: &sys::sctp_assoc_identity) -> Made {
        // SAFETY: as the file's head says; the slot is empty.
        Slot::made(|slot| unsafe { sys::sctp_assoc_server(slot, config, size, identity, 0) })
    }

    pub(crate) fn joined(
        config: &sys::sctp_assoc_config,
        size: u32,
        local: &sys::sctp_assoc_token,
        remote: &sys::sctp_assoc_token,
    ) -> Made {
        // SAFETY: as the file's head says; the slot is empty.
        Slot::made(|slot| unsafe { sys::sctp_assoc_joined(slot, config, size, local, remote) })
    }

    fn made(make: impl FnOnce(*mut sctp_assoc) -> sctp_assoc_code) -> Made {
        let slot = Slot { held: UnsafeCell::new(Held::EMPTY), watch: sctp_assoc_watch::NEW };
        done(make(slot.raw()))?;
        Ok(slot)
    }

    // The association. It is all that is held, or its first part, whose place is that of the whole.
    fn raw(&self) -> *mut sctp_assoc {
        self.held.get().cast()
    }

    /// The association and its channels.
    #[cfg(feature = "channels")]
    pub(crate) fn peer(&self) -> *mut sys::sctp_peer {
        self.held.get()
    }
}

/// Datagrams, moments, events and the end.
impl Slot {
    /// What became of the datagram, by its number.
    pub(crate) fn handle_datagram(&mut self, now: u64, datagram: &[u8]) -> Result<u32, Error> {
        let mut fate = 0;
        let (slot, watch) = self.watched();
        let (at, length) = (datagram.as_ptr(), datagram.len());
        // SAFETY: as the file's head says.
        done(unsafe { sys::sctp_assoc_watched_handle_datagram(slot, watch, now, at, length, &mut fate) })?;
        Ok(fate)
    }

    /// The length of the datagram, which stands at the front of the buffer.
    pub(crate) fn poll_transmit(&mut self, now: u64, buffer: &mut [u8]) -> Result<Option<usize>, Error> {
        let mut length = 0;
        let (slot, watch) = self.watched();
        let (at, room) = (buffer.as_mut_ptr(), buffer.len());
        // SAFETY: as the file's head says.
        let code = unsafe { sys::sctp_assoc_watched_poll_transmit(slot, watch, now, at, room, &mut length) };
        Ok(done_or_nothing(code, length)?.then_some(length))
    }

    pub(crate) fn poll_timeout(&self) -> Option<u64> {
        let mut moment = 0;
        // SAFETY: as the file's head says.
        let code = unsafe { sys::sctp_assoc_poll_timeout(self.raw(), &mut moment) };
        (code == sys::SCTP_ASSOC_DONE).then_some(moment)
    }

    pub(crate) fn handle_timeout(&mut self, now: u64) -> Result<(), Error> {
        let (slot, watch) = self.watched();
        // SAFETY: as the file's head says.
        done(unsafe { sys::sctp_assoc_watched_handle_timeout(slot, watch, now) })
    }

    pub(crate) fn poll_event(&mut self) -> Result<Option<sys::sctp_assoc_event>, Error> {
        let mut event = sys::sctp_assoc_event::default();
        let (slot, watch) = self.watched();
        // SAFETY: as the file's head says.
        let code = unsafe { sys::sctp_assoc_watched_poll_event(slot, watch, &mut event) };
        Ok(done_or_nothing(code, 0)?.then_some(event))
    }

    /// Whether a shutdown began here, once.
    pub(crate) fn poll_endpoint_event(&mut self) -> bool {
        // SAFETY: as the file's head says.
        unsafe { sys::sctp_assoc_poll_endpoint_event(self.raw()) == sys::SCTP_ASSOC_DONE }
    }

    pub(crate) fn shutdown(&mut self) -> Result<(), Error> {
        // SAFETY: as the file's head says.
        done(unsafe { sys::sctp_assoc_shutdown(self.raw()) })
    }

    pub(crate) fn heartbeat(&mut self, now: u64) -> Result<(), Error> {
        // SAFETY: as the file's head says.
        done(unsafe { sys::sctp_assoc_heartbeat(self.raw(), now) })
    }

    pub(crate) fn close(&mut self) -> Result<(), Error> {
        let (slot, watch) = self.watched();
        // SAFETY: as the file's head says.
        done(unsafe { sys::sctp_assoc_watched_close(slot, watch) })
    }

    pub(crate) fn abort(&mut self, reason: &[u8]) -> Result<(), Error> {
        let (slot, watch) = self.watched();
        // SAFETY: as the file's head says.
        done(unsafe { sys::sctp_assoc_watched_abort(slot, watch, reason.as_ptr(), reason.len()) })
    }

    /// What the watch counted and noted.
    pub(crate) fn watch(&self) -> &sctp_assoc_watch {
        &self.watch
    }

    /// Notes that the receive buffer was exhausted, which an event told that no watched call took.
    #[cfg(feature = "channels")]
    pub(crate) fn note_exhausted(&mut self) {
        self.watch.end = sys::SCTP_ASSOC_END_BUFFER_EXHAUSTED;
    }

    // What the watched calls want.
    fn watched(&mut self) -> (*mut sctp_assoc, *mut sctp_assoc_watch) {
        (self.raw(), &mut self.watch)
    }
}

/// Questions about the association.
impl Slot {
    pub(crate) fn is_established(&self) -> bool {
        // SAFETY: as the file's head says.
        unsafe { sys::sctp_assoc_is_established(self.raw()) }
    }

    pub(crate) fn is_closing(&self) -> bool {
        self.asked(sys::sctp_assoc_is_closing)
    }

    pub(crate) fn is_closed(&self) -> bool {
        self.asked(sys::sctp_assoc_is_closed)
    }

    pub(crate) fn is_drained(&self) -> bool {
        // SAFETY: as the file's head says.
        unsafe { sys::sctp_assoc_is_drained(self.raw()) }
    }

    pub(crate) fn is_failed(&self) -> bool {
        self.asked(sys::sctp_assoc_is_failed)
    }

    pub(crate) fn stats(&self) -> sys::sctp_assoc_totals {
        self.asked(sys::sctp_assoc_stats)
    }

    /// In ms.
    pub(crate) fn rto(&self) -> u64 {
        self.asked(sys::sctp_assoc_rto)
    }

    pub(crate) fn path(&self) -> sys::sctp_assoc_path_values {
        self.asked(sys::sctp_assoc_path)
    }

    pub(crate) fn metrics(&self) -> sys::sctp_assoc_metrics {
        let mut metrics = sys::sctp_assoc_metrics::default();
        // SAFETY: as the file's head says.
        unsafe { sys::sctp_assoc_get_metrics(self.raw(), &self.watch, &mut metrics) };
        metrics
    }

    /// How many identifiers there are, which stand at the front.
    pub(crate) fn stream_ids(&self, ids: &mut [u16]) -> Result<usize, Error> {
        let mut count = 0;
        // SAFETY: as the file's head says.
        let code = unsafe { sys::sctp_assoc_stream_ids(self.raw(), ids.as_mut_ptr(), ids.len(), &mut count) };
        match code {
            sys::SCTP_ASSOC_DONE => Ok(count),
            refused => Err(Error::of(refused, count)),
        }
    }

    // What a question that is never refused writes.
    fn asked<T: Default>(&self, question: unsafe extern "C" fn(*mut sctp_assoc, *mut T) -> sctp_assoc_code) -> T {
        let mut answer = T::default();
        // SAFETY: as the file's head says; the questions above are calls of the library.
        unsafe { question(self.raw(), &mut answer) };
        answer
    }
}

/// Streams.
impl Slot {
    pub(crate) fn set_max_send_message_size(&mut self, bytes: u32) {
        // SAFETY: as the file's head says.
        unsafe { sys::sctp_assoc_set_max_send_message_size(self.raw(), bytes) };
    }

    pub(crate) fn open_stream(&mut self, stream: u16, payload_type: u32) -> Result<(), Error> {
        // SAFETY: as the file's head says.
        done(unsafe { sys::sctp_assoc_open_stream(self.raw(), stream, payload_type) })
    }

    pub(crate) fn accept_stream(&mut self) -> Option<u16> {
        let mut stream = 0;
        // SAFETY: as the file's head says.
        let code = unsafe { sys::sctp_assoc_accept_stream(self.raw(), &mut stream) };
        (code == sys::SCTP_ASSOC_DONE).then_some(stream)
    }

    pub(crate) fn write(&mut self, stream: u16, payload_type: u32, message: &[u8]) -> Result<(), Error> {
        let (at, length) = (message.as_ptr(), message.len());
        // SAFETY: as the file's head says.
        done(unsafe { sys::sctp_assoc_write(self.raw(), stream, payload_type, at, length) })
    }

    /// The length and the payload type of the message, which stands at the front of the buffer.
    pub(crate) fn read(&mut self, stream: u16, buffer: &mut [u8]) -> Result<Option<(usize, u32)>, Error> {
        let (mut length, mut number) = (0, 0);
        let (at, room) = (buffer.as_mut_ptr(), buffer.len());
        // SAFETY: as the file's head says.
        let code = unsafe { sys::sctp_assoc_read(self.raw(), stream, at, room, &mut length, &mut number) };
        Ok(done_or_nothing(code, length)?.then_some((length, number)))
    }

    pub(crate) fn next_length(&mut self, stream: u16) -> Result<Option<usize>, Error> {
        let mut length = 0;
        // SAFETY: as the file's head says.
        let code = unsafe { sys::sctp_assoc_next_length(self.raw(), stream, &mut length) };
        Ok(done_or_nothing(code, length)?.then_some(length))
    }

    pub(crate) fn finish(&mut self, stream: u16) -> Result<(), Error> {
        // SAFETY: as the file's head says.
        done(unsafe { sys::sctp_assoc_finish(self.raw(), stream) })
    }

    pub(crate) fn stop(&mut self, stream: u16) -> Result<(), Error> {
        // SAFETY: as the file's head says.
        done(unsafe { sys::sctp_assoc_stop(self.raw(), stream) })
    }

    pub(crate) fn close_stream(&mut self, stream: u16) -> Result<(), Error> {
        // SAFETY: as the file's head says.
        done(unsafe { sys::sctp_assoc_close_stream(self.raw(), stream) })
    }

    pub(crate) fn set_reliability(&mut self, stream: u16, unordered: bool, kind: u32, value: u32) -> Result<(), Error> {
        // SAFETY: as the file's head says.
        done(unsafe { sys::sctp_assoc_set_reliability(self.raw(), stream, unordered, kind, value) })
    }
}

/// The values of a stream, that are asked and set.
impl Slot {
    pub(crate) fn payload_type(&self, stream: u16) -> Result<u32, Error> {
        self.asked_of(stream, sys::sctp_assoc_payload_type)
    }

    pub(crate) fn set_payload_type(&mut self, stream: u16, payload_type: u32) -> Result<(), Error> {
        // SAFETY: as the file's head says.
        done(unsafe { sys::sctp_assoc_set_payload_type(self.raw(), stream, payload_type) })
    }

    pub(crate) fn stream_stats(&self, stream: u16) -> Result<sys::sctp_assoc_counters, Error> {
        self.asked_of(stream, sys::sctp_assoc_stream_stats)
    }

    pub(crate) fn buffered_amount(&self, stream: u16) -> Result<usize, Error> {
        self.asked_of(stream, sys::sctp_assoc_buffered_amount)
    }

    pub(crate) fn low_mark(&self, stream: u16) -> Result<usize, Error> {
        self.asked_of(stream, sys::sctp_assoc_low_mark)
    }

    pub(crate) fn set_low_mark(&mut self, stream: u16, bytes: usize) -> Result<(), Error> {
        // SAFETY: as the file's head says.
        done(unsafe { sys::sctp_assoc_set_low_mark(self.raw(), stream, bytes) })
    }

    pub(crate) fn high_mark(&self, stream: u16) -> Result<usize, Error> {
        self.asked_of(stream, sys::sctp_assoc_high_mark)
    }

    pub(crate) fn set_high_mark(&mut self, stream: u16, bytes: usize) -> Result<(), Error> {
        // SAFETY: as the file's head says.
        done(unsafe { sys::sctp_assoc_set_high_mark(self.raw(), stream, bytes) })
    }

    // What a question about a stream writes.
    fn asked_of<T: Default>(
        &self,
        stream: u16,
        question: unsafe extern "C" fn(*mut sctp_assoc, u16, *mut T) -> sctp_assoc_code,
    ) -> Result<T, Error> {
        let mut answer = T::default();
        // SAFETY: as the file's head says; the questions above are calls of the library.
        done(unsafe { question(self.raw(), stream, &mut answer) })?;
        Ok(answer)
    }
}
