//! The association layer of SCTP (RFC 4960) without input or output: safe Rust over the library that `./library`
//! builds, whose functions are proved. `sctp-assoc-sys` looks for it in its checkout or its release, or where
//! `SCTP_ASSOC_ARCHIVE` says.
//!
//! An [`Association`] reads no clock, no socket and no random source; [`Identity::random`] alone asks the system for
//! random bytes. One turn of its loop, at the moment `now`:
//!
//! 1. If [`poll_timeout`](Association::poll_timeout) gives a moment that is not after `now`, call
//!    [`handle_timeout`](Association::handle_timeout).
//! 2. If a datagram came, hand it to [`handle_datagram`](Association::handle_datagram).
//! 3. Take events and poll for datagrams until neither brings anything: a poll for datagrams can queue events, and what
//!    is written or read at an event leaves datagrams.
//!    - Call [`poll_event`](Association::poll_event) until it gives None; at [`Event::Opened`] call
//!      [`accept_stream`](Association::accept_stream), and at [`Event::Readable`] [`read`](Stream::read) until it gives
//!      None, too, or the stream is gone.
//!    - Call [`poll_transmit`](Association::poll_transmit) until it gives None, and send each datagram.
//! 4. Sleep until the moment of `poll_timeout`, or until a datagram comes.
//!
//! To end call [`shutdown`](Association::shutdown), and go on until [`is_drained`](Association::is_drained); or, to end
//! at once, [`abort`](Association::abort), which tells the peer why, or [`close`](Association::close), which tells it
//! nothing. [`end`](Association::end) says why an association ended.
//!
//! `examples/echo.rs` does so over UDP (RFC 6951). Here a client and a server meet in memory:
//!
//! ```
//! use sctp_assoc::{Association, Config, Error, Identity, PayloadType};
//! use std::time::Instant;
//!
//! /// Hands over what `from` has to send.
//! fn pass_on(from: &mut Association, to: &mut Association, now: Instant) -> Result<(), Error> {
//!     let mut buffer = [0; sctp_assoc::MAX_DATAGRAM];
//!     while let Some(datagram) = from.poll_transmit(now, &mut buffer)? {
//!         to.handle_datagram(now, datagram)?;
//!     }
//!     Ok(())
//! }
//!
//! let now = Instant::now();
//! let config = Config::default();
//! // In earnest these bytes come from a random source.
//! let mut client = Association::client(&config, &Identity::from_random([1; 40]), now)?;
//! let mut server = Association::server(&config, &Identity::from_random([2; 40]), now)?;
//! while !(client.is_established() && server.is_established()) {
//!     pass_on(&mut client, &mut server, now)?;
//!     pass_on(&mut server, &mut client, now)?;
//! }
//!
//! client.open_stream(1, PayloadType::String)?.write(b"hello")?;
//! pass_on(&mut client, &mut server, now)?;
//!
//! let mut stream = server.accept_stream().expect("the client opened one");
//! assert_eq!(stream.id(), 1);
//! let mut buffer = [0; 100];
//! let message = stream.read(&mut buffer)?.expect("the message came");
//! assert_eq!(message.bytes, b"hello");
//! assert_eq!(message.payload_type, PayloadType::String);
//! # Ok::<(), Error>(())
//! ```
//!
//! Data channels (RFC 8832) are in the module `channels`, with the cargo feature of that name: a `Connection` there owns
//! an association and its channels.
//!
//! Moments are of `std::time::Instant`, so the crate needs `std`; `sctp-assoc-sys` does not. Memory is that of the C
//! library's `malloc`, and not of Rust's global allocator, unless the program sets another heap by
//! [`sctp_assoc_set_heap`](sctp_assoc_sys::sctp_assoc_set_heap) of that crate.
#![deny(missing_docs, unsafe_op_in_unsafe_fn, unsafe_code)]

use sctp_assoc_sys as sys;

/// No datagram that [`poll_transmit`](Association::poll_transmit) gives is longer, in bytes.
pub const MAX_DATAGRAM: usize = sys::SCTP_ASSOC_MAX_DATAGRAM;

mod association;
#[cfg(feature = "channels")]
pub mod channels;
mod config;
mod error;
mod event;
mod metrics;
mod payload;
#[allow(unsafe_code)]
mod slot;
mod stream;
mod watch;

pub use association::{Association, Fate, Totals};
pub use config::{Config, Identity, Profile, Token};
pub use error::Error;
pub use event::{Counters, EndpointEvent, Event, Reason};
pub use metrics::Metrics;
pub use payload::{PayloadType, Reliability};
pub use stream::{Message, Stream};
pub use watch::{Cause, Direction, End, Path, Traffic};
