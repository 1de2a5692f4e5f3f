//! Data channels of each type between two sides in memory: they open by at most two messages, carry texts and binary
//! messages, empty ones too, and close. What is refused, each at least once but for want of memory.
mod support;

use sctp_assoc::channels::{Channel, Connection, Error, Event, Info, Kind, Message, Role, State};
use sctp_assoc::{Config, End, PayloadType, Reason, Reliability};
use std::time::Duration;
use support::Link;

type Result<T> = std::result::Result<T, Error>;

/// A client and a server with channels.
struct Sides {
    link: Link<Connection>,
}

/// The texts and binary messages that came, in their order.
type Messages = Vec<Message<Vec<u8>>>;

fn kind(ordered: bool, reliability: Reliability) -> Kind {
    let kind = if ordered { Kind::ordered() } else { Kind::unordered() };
    match reliability {
        Reliability::Retransmissions(times) => kind.max_retransmits(times).priority(256),
        Reliability::Lifetime(time) => kind.max_lifetime(time).priority(256),
        _ => kind.priority(256),
    }
}

fn negotiated(id: u16) -> Kind {
    Kind::default().negotiated(id)
}

impl Sides {
    /// Before the first packet.
    fn new(config: &Config) -> Result<Sides> {
        let Link { ends: [client, server], now } = Link::new(config)?;
        let ends = [Connection::new(client, Role::Client)?, Connection::new(server, Role::Server)?];
        Ok(Sides { link: Link { ends, now } })
    }

    /// After the handshake, which both were told of.
    fn connected(config: &Config) -> Result<Sides> {
        let mut sides = Sides::new(config)?;
        sides.link.settle()?;
        assert_eq!((sides.events(0)?, sides.events(1)?), (vec![Event::Connected], vec![Event::Connected]));
        Ok(sides)
    }

    /// After an ordered and reliable channel of the client's was opened, with the identifier 0.
    fn with_channel() -> Result<Sides> {
        let mut sides = Sides::connected(&Config::default())?;
        assert_eq!(sides.open(0, "chat", "", &Kind::default())?, 0);
        sides.settle()?;
        Ok(sides)
    }

    fn open(&mut self, side: usize, label: &str, protocol: &str, kind: &Kind) -> Result<u16> {
        self.link.ends[side].open(label, protocol, kind)
    }

    fn channel(&mut self, side: usize, id: u16) -> Channel<'_> {
        self.link.ends[side].channel(id)
    }

    fn send(&mut self, side: usize, id: u16, message: Message<&[u8]>) -> Result<()> {
        let mut channel = self.channel(side, id);
        match message {
            Message::Text(text) => channel.send_text(std::str::from_utf8(text).expect("a text")),
            Message::Binary(bytes) | Message::Other(bytes) => channel.send_binary(bytes),
        }
    }

    /// How many DATA chunks came.
    fn data_chunks(&self, side: usize) -> u64 {
        self.link.ends[side].association().stats().data_chunks
    }

    /// The events that wait, but for falls to the low threshold.
    fn events(&mut self, side: usize) -> Result<Vec<Event>> {
        let mut events = Vec::new();
        while let Some(event) = self.link.ends[side].poll_event()? {
            events.push(event);
        }
        events.retain(|event| !matches!(event, Event::BufferedLow { .. }));
        Ok(events)
    }

    /// Polls for events and hands over what is due, until nothing is. Answers the events of each side.
    fn settle(&mut self) -> Result<[Vec<Event>; 2]> {
        let mut told = [Vec::new(), Vec::new()];
        for _ in 0..10 {
            for (side, told) in told.iter_mut().enumerate() {
                told.extend(self.events(side)?);
            }
            self.link.settle()?;
        }
        Ok(told)
    }

    fn receive_all(&mut self, side: usize, id: u16) -> Result<Messages> {
        let mut channel = self.channel(side, id);
        std::iter::from_fn(|| channel.receive_vec().transpose()).collect()
    }

    /// Whether texts and binary messages, empty ones too, come as they were sent.
    fn carry_four(&mut self, from: usize, id: u16) -> Result<()> {
        let four: [Message<&[u8]>; 4] =
            [Message::Text("tüte".as_bytes()), Message::Binary(&[0, 255]), Message::Text(b""), Message::Binary(b"")];
        for message in four {
            self.send(from, id, message)?;
        }
        let told = self.settle()?;
        assert!(told[1 - from].contains(&Event::Message { id }));
        let came = self.receive_all(1 - from, id)?;
        let bytes: Messages = vec![
            Message::Text("tüte".into()),
            Message::Binary(vec![0, 255]),
            Message::Text(Vec::new()),
            Message::Binary(Vec::new()),
        ];
        assert_eq!(came, bytes);
        Ok(())
    }
}

/// Whether a channel opens by one message each way, is at both sides what it was asked to be, and carries messages.
fn lives(opener: usize, kind: &Kind) -> Result<()> {
    let mut sides = Sides::connected(&Config::default())?;
    let id = sides.open(opener, "chat", "wamp", kind)?;
    assert_eq!(usize::from(id), opener, "a client's identifiers are even, a server's odd");
    assert_eq!(sides.channel(opener, id).info()?.state, State::Connecting);
    let told = sides.settle()?;
    assert_eq!(told[opener], [Event::Opened { id }, Event::Message { id }]);
    assert_eq!(told[1 - opener], [Event::Announced { id }, Event::Message { id }]);
    for side in 0..2 {
        assert_eq!(sides.data_chunks(side), 1, "OPEN or ACK came, and no other message");
        let channel = sides.channel(side, id);
        let Info { ordered, reliability, priority, negotiated, state, .. } = channel.info()?;
        assert_eq!((ordered, reliability, priority), (kind.ordered, kind.reliability, 256));
        assert_eq!((negotiated, state), (false, State::Open));
        assert_eq!((channel.id(), channel.label()?, channel.protocol()?), (id, "chat".into(), "wamp".into()));
        assert_eq!((channel.label_bytes()?, channel.protocol_bytes()?), (b"chat".to_vec(), b"wamp".to_vec()));
    }
    sides.carry_four(opener, id)?;
    sides.carry_four(1 - opener, id)?;
    closes(&mut sides, opener, id)
}

/// Whether a channel ends at both sides, each told once, and its identifier can be used again.
fn closes(sides: &mut Sides, closer: usize, id: u16) -> Result<()> {
    sides.channel(closer, id).close()?;
    assert_eq!(sides.channel(closer, id).info()?.state, State::Closing);
    assert_eq!(sides.send(closer, id, Message::Text(b"late")), Err(Error::NotOpen));
    let told = sides.settle()?;
    assert_eq!(told, [[Event::Closed { id }], [Event::Closed { id }]]);
    for side in 0..2 {
        assert_eq!(sides.channel(side, id).info(), Err(Error::NoChannel));
        assert_eq!(sides.link.ends[side].association().stream_ids()?, []);
    }
    assert_eq!(sides.open(closer, "again", "", &negotiated(id))?, id);
    Ok(())
}

#[test]
fn an_ordered_and_reliable_channel() -> Result<()> {
    lives(0, &kind(true, Reliability::Reliable))
}

#[test]
fn an_unordered_and_reliable_channel() -> Result<()> {
    lives(1, &kind(false, Reliability::Reliable))
}

#[test]
fn an_ordered_channel_with_a_limit_of_retransmissions() -> Result<()> {
    lives(0, &kind(true, Reliability::Retransmissions(3)))
}

#[test]
fn an_unordered_channel_with_a_limit_of_retransmissions() -> Result<()> {
    lives(1, &kind(false, Reliability::Retransmissions(0)))
}

#[test]
fn an_ordered_channel_with_a_lifetime() -> Result<()> {
    lives(1, &kind(true, Reliability::Lifetime(Duration::from_millis(5000))))
}

#[test]
fn an_unordered_channel_with_a_lifetime() -> Result<()> {
    lives(0, &kind(false, Reliability::Lifetime(Duration::from_millis(70_000))))
}

/// It opens at both sides by no message at all.
#[test]
fn a_negotiated_channel() -> Result<()> {
    let mut sides = Sides::connected(&Config::default())?;
    for side in 0..2 {
        assert_eq!(sides.open(side, "", "", &negotiated(7))?, 7);
    }
    let told = sides.settle()?;
    let opened = vec![Event::Opened { id: 7 }, Event::Message { id: 7 }];
    assert_eq!(told, [opened.clone(), opened]);
    assert_eq!((sides.data_chunks(0), sides.data_chunks(1)), (0, 0));
    assert!(sides.channel(0, 7).info()?.negotiated);
    sides.carry_four(0, 7)?;
    sides.carry_four(1, 7)?;
    closes(&mut sides, 1, 7)
}

/// Before the handshake, and with a message that goes out behind the OPEN.
#[test]
fn a_channel_is_opened_before_the_handshake() -> Result<()> {
    let mut sides = Sides::new(&Config::default())?;
    assert_eq!(sides.open(0, "early", "", &Kind::default())?, 0);
    assert_eq!(sides.open(0, "early", "", &Kind::default())?, 2);
    assert_eq!(sides.send(0, 0, Message::Text(b"early")), Err(Error::NotOpen));
    sides.channel(0, 2).close()?; // it was not begun, so it is gone at once
    assert_eq!(sides.channel(0, 2).info(), Err(Error::NoChannel));
    sides.link.settle()?;
    assert_eq!(sides.events(0)?, [Event::Connected]);
    sides.send(0, 0, Message::Text(b"hello"))?;
    let told = sides.settle()?;
    assert_eq!(told[1].first(), Some(&Event::Connected));
    assert!(told[0].contains(&Event::Opened { id: 0 }) && told[1].contains(&Event::Announced { id: 0 }));
    assert_eq!(sides.receive_all(1, 0)?, [Message::Text(b"hello".to_vec())]);
    Ok(())
}

#[test]
fn a_message_waits_for_a_longer_buffer() -> Result<()> {
    let mut sides = Sides::with_channel()?;
    let long = vec![7; 3000];
    sides.send(0, 0, Message::Binary(&long))?;
    sides.settle()?;
    let mut channel = sides.channel(1, 0);
    let mut buffer = vec![0; 4000];
    assert_eq!(channel.receive(&mut buffer[..2999]), Err(Error::NoRoom { needed: 3000 }));
    assert_eq!(channel.receive(&mut buffer)?, Some(Message::Binary(&long[..])));
    assert_eq!(channel.receive(&mut buffer)?, None);
    Ok(())
}

#[test]
fn the_buffered_amount_falls_to_its_threshold() -> Result<()> {
    let mut sides = Sides::with_channel()?;
    let mut channel = sides.channel(0, 0);
    assert_eq!((channel.buffered_amount()?, channel.low_threshold()?), (0, 0));
    channel.set_low_threshold(100)?;
    assert_eq!(channel.low_threshold()?, 100);
    channel.send_binary(&[7; 500])?;
    assert_eq!(channel.buffered_amount()?, 500);
    assert_eq!(sides.link.ends[0].poll_event()?, None);
    sides.link.settle()?;
    let end = &mut sides.link.ends[0];
    assert_eq!(end.poll_event()?, Some(Event::BufferedLow { id: 0 }));
    assert_eq!((end.channel(0).buffered_amount()?, end.poll_event()?), (0, None));
    Ok(())
}

/// Of a channel that is not there, whatever is called.
#[test]
fn no_channel_is_refused() -> Result<()> {
    let mut sides = Sides::with_channel()?;
    let mut channel = sides.channel(1, 1);
    assert_eq!(channel.send_text("text"), Err(Error::NoChannel));
    assert_eq!(channel.send_binary(b"bytes"), Err(Error::NoChannel));
    assert_eq!(channel.receive(&mut []), Err(Error::NoChannel));
    assert_eq!(channel.receive_vec(), Err(Error::NoChannel));
    assert_eq!(channel.close(), Err(Error::NoChannel));
    assert_eq!(channel.info(), Err(Error::NoChannel));
    assert_eq!((channel.label(), channel.label_bytes()), (Err(Error::NoChannel), Err(Error::NoChannel)));
    assert_eq!((channel.protocol(), channel.protocol_bytes()), (Err(Error::NoChannel), Err(Error::NoChannel)));
    assert_eq!(channel.buffered_amount(), Err(Error::NoChannel));
    assert_eq!(channel.low_threshold(), Err(Error::NoChannel));
    assert_eq!(channel.set_low_threshold(1), Err(Error::NoChannel));
    Ok(())
}

/// Label, protocol and identifiers. All even ones are taken by negotiation, so that none is left for a client.
#[test]
fn openings_are_refused() -> Result<()> {
    let mut sides = Sides::connected(&Config::default())?;
    let long = "l".repeat(65_536);
    assert_eq!(sides.open(0, &long, "", &Kind::default()), Err(Error::LabelTooLong));
    assert_eq!(sides.open(0, "", &long, &Kind::default()), Err(Error::LabelTooLong));
    assert_eq!(sides.open(0, "", "", &negotiated(65_535)), Err(Error::IdentifierTaken));
    for id in (0..65_535).step_by(2) {
        assert_eq!(sides.open(0, "", "", &negotiated(id))?, id);
    }
    assert_eq!(sides.open(0, "", "", &negotiated(0)), Err(Error::IdentifierTaken));
    assert_eq!(sides.open(0, "", "", &Kind::default()), Err(Error::NoIdentifierLeft));
    assert_eq!(sides.open(0, "", "", &negotiated(1))?, 1);
    Ok(())
}

/// Its stream is not opened yet, a message is too long, and the association is not established any more.
#[test]
fn the_association_refuses() -> Result<()> {
    let mut sides = Sides::connected(&Config::default())?;
    let id = sides.open(0, "chat", "", &Kind::default())?;
    let no_stream = Error::Association(sctp_assoc::Error::NoStream);
    assert_eq!(sides.channel(0, id).buffered_amount(), Err(no_stream));
    sides.settle()?;
    sides.link.ends[0].set_max_message_size(Some(10));
    let too_long = Error::Association(sctp_assoc::Error::MessageTooLong);
    assert_eq!(sides.send(0, id, Message::Binary(&[7; 11])), Err(too_long));
    sides.link.ends[0].set_max_message_size(None);
    assert_eq!(sides.send(0, id, Message::Binary(&[7; 65_537])), Err(too_long));
    sides.link.ends[0].set_max_message_size(Some(0));
    sides.send(0, id, Message::Binary(&[7; 65_537]))?;
    sides.link.ends[0].shutdown()?;
    let not_established = Error::Association(sctp_assoc::Error::NotEstablished);
    assert_eq!(sides.send(0, id, Message::Text(b"late")), Err(not_established));
    assert_eq!(sides.channel(0, id).close(), Err(Error::Association(sctp_assoc::Error::CannotReset)));
    Ok(())
}

/// A message that is no OPEN, on a stream that the client has no channel on.
#[test]
fn what_begins_with_no_open_fails() -> Result<()> {
    let mut sides = Sides::connected(&Config::default())?;
    sides.link.ends[0].association_mut().open_stream(4, PayloadType::String)?.write(b"no OPEN")?;
    let told = sides.settle()?;
    assert_eq!(told[1], [Event::Failed { id: 4 }]);
    assert_eq!(sides.channel(1, 4).info(), Err(Error::NoChannel));
    assert_eq!(sides.link.ends[0].association().stream_ids()?, [], "its stream was reset");
    Ok(())
}

/// A DATA_CHANNEL_OPEN (RFC 8832 section 5.1) of an ordered and reliable channel.
fn open_message(label: &[u8], protocol: &[u8]) -> Vec<u8> {
    let length = |bytes: &[u8]| u16::try_from(bytes.len()).expect("it is short").to_be_bytes();
    [&[3, 0, 0, 0, 0, 0, 0, 0], &length(label)[..], &length(protocol), label, protocol].concat()
}

/// A peer may write anything there.
#[test]
fn a_label_that_is_no_text_is_read_as_bytes() -> Result<()> {
    let mut sides = Sides::connected(&Config::default())?;
    let (label, protocol) = (b"\xff\xfe", b"\xc3");
    let mut stream = sides.link.ends[0].association_mut().open_stream(4, PayloadType::Dcep)?;
    stream.write(&open_message(label, protocol))?;
    sides.link.settle()?;
    assert!(sides.events(1)?.contains(&Event::Announced { id: 4 }));
    let channel = sides.channel(1, 4);
    assert_eq!((channel.label(), channel.label_bytes()?), (Err(Error::NotUtf8), label.to_vec()));
    assert_eq!((channel.protocol(), channel.protocol_bytes()?), (Err(Error::NotUtf8), protocol.to_vec()));
    Ok(())
}

#[test]
fn an_end_is_told_and_no_channel_is_left() -> Result<()> {
    let mut sides = Sides::with_channel()?;
    sides.link.ends[1].shutdown()?;
    let told = sides.settle()?;
    for (side, told) in told.iter().enumerate() {
        assert_eq!(told, &[Event::Lost { reason: Reason::Closed }]);
        assert_eq!(sides.channel(side, 0).info(), Err(Error::NoChannel));
        let end = &sides.link.ends[side];
        assert_eq!((end.end(), end.metrics()), (Some(End::ShutDown), end.association().metrics()));
        assert!(end.metrics().drained && end.metrics().traffic == end.association().traffic());
    }
    Ok(())
}

/// By an ABORT, which the peer is told of, and by a close, which it is not.
#[test]
fn an_end_at_once_leaves_no_channel() -> Result<()> {
    let lost = [Event::Lost { reason: Reason::Closed }];
    let mut sides = Sides::with_channel()?;
    sides.link.ends[0].abort(b"moved")?;
    assert_eq!(sides.settle()?, [lost, lost]);
    assert!(sides.link.ends.iter().all(Connection::is_drained));
    assert_eq!(sides.link.ends[0].end(), Some(End::Aborted));
    assert!(matches!(sides.link.ends[1].end(), Some(End::AbortCame(cause)) if cause.reason() == b"moved"));
    assert_eq!(sides.channel(1, 0).info(), Err(Error::NoChannel));

    let mut sides = Sides::with_channel()?;
    sides.link.ends[0].close()?;
    assert_eq!(sides.settle()?, [lost.to_vec(), Vec::new()]);
    assert_eq!((sides.link.ends[0].end(), sides.link.ends[1].end()), (Some(End::Closed), None));
    assert_eq!(sides.channel(0, 0).info(), Err(Error::NoChannel));
    assert_eq!(sides.channel(1, 0).info()?.state, State::Open);
    Ok(())
}

/// The end of an association is known, too, if channels take the events that tell it.
#[test]
fn a_receive_buffer_that_is_exhausted_is_told() -> Result<()> {
    let mut config = Config::default();
    config.max_receive_buffer_size = 1500;
    let mut sides = Sides::connected(&config)?;
    let id = sides.open(0, "chat", "", &Kind::default())?;
    sides.settle()?;
    sides.send(0, id, Message::Binary(&[7; 6000]))?;
    for _ in 0..100 {
        sides.link.now += Duration::from_secs(1);
        sides.link.settle()?;
        let now = sides.link.now;
        sides.link.ends[0].handle_timeout(now)?;
    }
    assert_eq!(sides.link.ends[1].end(), Some(End::BufferExhausted));
    assert_eq!(sides.events(1)?.last(), Some(&Event::Lost { reason: Reason::BufferExhausted }));
    assert_eq!(sides.link.ends[1].end(), Some(End::BufferExhausted));
    Ok(())
}

#[test]
fn a_handshake_that_nobody_answers_is_told() -> Result<()> {
    let mut config = Config::default();
    config.max_init_retransmits = Some(1);
    let mut sides = Sides::new(&config)?;
    sides.open(0, "chat", "", &Kind::default())?;
    while let Some(due) = sides.link.ends[0].poll_timeout() {
        sides.link.ends[0].handle_timeout(due)?;
    }
    assert_eq!(sides.events(0)?, [Event::HandshakeFailed { reason: Reason::NoInitAck }]);
    assert_eq!(sides.channel(0, 0).info(), Err(Error::NoChannel));
    Ok(())
}

#[test]
fn errors_say_what_is_wrong() {
    let error: Box<dyn std::error::Error> = Error::from(sctp_assoc::Error::NoStream).into();
    assert_eq!(error.to_string(), "there is no such stream");
    assert_eq!(Error::NoRoom { needed: 12 }.to_string(), "the buffer is too short: 12 bytes are needed");
    assert_eq!(Error::from(sctp_assoc::Error::NoMemory), Error::NoMemory);
    assert_eq!(Error::NotOpen.to_string(), "the channel is not open");
}

/// What was not asked for is as by default.
#[test]
fn a_kind_is_what_was_asked_for() {
    assert_eq!(Kind::default(), Kind::ordered());
    let Kind { ordered, reliability, priority, negotiated, .. } = Kind::unordered().priority(512).negotiated(7);
    assert_eq!((ordered, reliability, priority, negotiated), (false, Reliability::Reliable, 512, Some(7)));
    let (kind, time) = (Kind::ordered().max_retransmits(2), Duration::from_millis(500));
    assert_eq!((kind.ordered, kind.reliability, kind.priority), (true, Reliability::Retransmissions(2), 0));
    assert_eq!(kind.max_lifetime(time).reliability, Reliability::Lifetime(time));
    assert_eq!(kind.negotiated, None);
}

/// It may go to another thread.
#[test]
fn a_connection_is_sent() {
    fn is_sent<T: Send>() {}
    is_sent::<Connection>();
}
