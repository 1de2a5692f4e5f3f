//! Data channels (RFC 8831, RFC 8832) over one association, as the W3C names them. It is there with the cargo feature
//! `channels`, with which the crate links the archive of `./library channels`.
//!
//! A [`Connection`] owns an [`Association`](crate::Association) and its channels. The loop stays as the page of the
//! crate has it, with the connection's calls of the same names, but for the events that its third step takes:
//!
//! - Call [`Connection::poll_event`] until it gives None, and accept no streams; at [`Event::Message`] call
//!   [`Channel::receive`] until it gives None, too, or the channel is gone.
//!
//! What these calls write, as OPENs and ACKs, goes out by [`Connection::poll_transmit`] like messages do, so do that
//! step after them, too. `examples/chat.rs` does so over UDP. Here two sides meet in memory:
//!
//! ```
//! use sctp_assoc::channels::{Connection, Error, Event, Kind, Message, Role};
//! use sctp_assoc::{Association, Config, Token, MAX_DATAGRAM};
//! use std::time::Instant;
//!
//! fn main() -> Result<(), Error> {
//!     let (config, now) = (Config::default(), Instant::now());
//!     let (a, b) = (Token::new(&config, 1, 100), Token::new(&config, 2, 500)); // random in earnest
//!     let mut ours = Connection::new(Association::joined(&config, &a, &b, now)?, Role::Client)?;
//!     let mut theirs = Connection::new(Association::joined(&config, &b, &a, now)?, Role::Server)?;
//!
//!     let id = ours.open("chat", "", &Kind::default())?;
//!     while ours.poll_event()?.is_some() {} // writes the OPEN
//!     ours.channel(id).send_text("hello")?;
//!     let mut datagram = [0; MAX_DATAGRAM];
//!     while let Some(bytes) = ours.poll_transmit(now, &mut datagram)? {
//!         theirs.handle_datagram(now, bytes)?;
//!     }
//!
//!     assert_eq!(theirs.poll_event()?, Some(Event::Connected));
//!     assert_eq!(theirs.poll_event()?, Some(Event::Announced { id }));
//!     let mut channel = theirs.channel(id);
//!     assert_eq!(channel.label()?, "chat");
//!     let mut buffer = [0; 100];
//!     assert_eq!(channel.receive(&mut buffer)?, Some(Message::Text(&b"hello"[..])));
//!     Ok(())
//! }
//! ```
mod channel;
mod connection;
mod error;
mod event;
mod kind;
#[allow(unsafe_code)]
mod slot;

pub use channel::Channel;
pub use connection::Connection;
pub use error::Error;
pub use event::Event;
pub use kind::{Info, Kind, Message, Role, State};
