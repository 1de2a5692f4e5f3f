//! The Rust code of docs/GUIDE.md on data channels: a client and a server shake hands, the client opens a channel, both
//! say hello on it, and it is closed.
use sctp_assoc::channels::{Connection, Error, Event, Kind, Message, Role};
use sctp_assoc::{Association, Config, Identity, Reliability, MAX_DATAGRAM};
use std::time::{Duration, Instant};

struct End {
    connection: Connection,
    /// The messages that came.
    messages: Vec<(u16, Message<Vec<u8>>)>,
    /// The channels that ended.
    forgotten: Vec<u16>,
}

fn take_message(end: &mut End, id: u16, message: Message<Vec<u8>>) {
    end.messages.push((id, message));
}

fn forget_channel(end: &mut End, id: u16) {
    end.forgotten.push(id);
}

include!(concat!(env!("OUT_DIR"), "/channels.rs"));

fn end(is_client: bool, now: Instant) -> Result<End, Error> {
    let made = if is_client { Association::client } else { Association::server };
    let association = made(&Config::default(), &Identity::from_random([1 + u8::from(is_client); 40]), now)?;
    let connection = begin_channels(association, is_client)?;
    Ok(End { connection, messages: Vec::new(), forgotten: Vec::new() })
}

/// What is due at an end is done, and what it has to send is handed over.
fn turn(from: &mut End, to: &mut End, now: Instant) -> Result<(), Error> {
    from.connection.handle_timeout(now)?;
    take_channel_events(from)?;
    let mut datagram = [0; MAX_DATAGRAM];
    while let Some(bytes) = from.connection.poll_transmit(now, &mut datagram)? {
        to.connection.handle_datagram(now, bytes)?;
    }
    Ok(())
}

/// Turns of both ends, so many that nothing is left.
fn go_on(ends: &mut [End; 2], now: Instant) -> Result<(), Error> {
    let [a, b] = ends;
    for _ in 0..10 {
        turn(a, b, now)?;
        turn(b, a, now)?;
    }
    Ok(())
}

#[test]
fn the_guide_opens_a_channel_and_says_hello() -> Result<(), Error> {
    let began = Instant::now();
    let mut ends = [end(true, began)?, end(false, began)?];
    go_on(&mut ends, began)?;
    for end in &mut ends {
        assert_eq!(end.messages, [(0, Message::Text(b"hello".to_vec()))]);
        let channel = end.connection.channel(0);
        let info = channel.info()?;
        assert_eq!((info.ordered, info.reliability), (false, Reliability::Retransmissions(2)));
        assert_eq!(channel.label()?, "moves");
    }
    for tenths in 1..=10 {
        go_on(&mut ends, began + Duration::from_millis(100 * tenths))?; // what was delayed is acknowledged
    }
    ends[0].connection.channel(0).close()?;
    go_on(&mut ends, began + Duration::from_millis(1100))?;
    for end in &ends {
        assert_eq!((end.forgotten.len(), end.messages.len()), (1, 1));
    }
    Ok(())
}
