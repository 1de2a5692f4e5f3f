//! A handshake, and messages of 1, 1,200 and 65,536 bytes both ways.
mod support;

use sctp_assoc::{Association, Config, Error, Event, Identity, PayloadType, Reliability, Token};
use std::time::Instant;
use support::Link;

fn message(length: usize, number: usize) -> Vec<u8> {
    (0..length).map(|i| (i * 7 + number) as u8).collect()
}

/// Writes at one end, and reads at the other when its events say so. Answers what was read.
fn send(link: &mut Link, writer: usize, stream: u16, sent: &[u8]) -> Result<Vec<(PayloadType, Vec<u8>)>, Error> {
    link.ends[writer].stream(stream).write(sent)?;
    link.settle()?;
    let reader = &mut link.ends[1 - writer];
    let mut read = Vec::new();
    while let Some(event) = reader.poll_event()? {
        if let Event::Readable { stream } = event {
            while let Some(message) = reader.stream(stream).read_vec()? {
                read.push(message);
            }
        }
    }
    Ok(read)
}

fn exchange(link: &mut Link, writer: usize, stream: u16, payload_type: PayloadType) -> Result<(), Error> {
    for (number, length) in [1, 1200, 65536].into_iter().enumerate() {
        let sent = message(length, number);
        let read = send(link, writer, stream, &sent)?;
        assert!(read == [(payload_type, sent)], "another message of {length} bytes was read, or {} were", read.len());
        assert_eq!(link.ends[writer].stream(stream).buffered_amount()?, 0);
    }
    Ok(())
}

fn both_ways(link: &mut Link) -> Result<(), Error> {
    link.ends[0].open_stream(3, PayloadType::Binary)?;
    exchange(link, 0, 3, PayloadType::Binary)?;
    assert_eq!(link.ends[1].accept_stream().map(|stream| stream.id()), Some(3));
    assert!(link.ends[1].accept_stream().is_none());
    link.ends[1].open_stream(4, PayloadType::String)?.set_reliability(true, Reliability::Reliable)?;
    exchange(link, 1, 4, PayloadType::String)
}

#[test]
fn by_datagrams() -> Result<(), Error> {
    both_ways(&mut Link::established(&Config::default())?)
}

#[test]
fn by_tokens() -> Result<(), Error> {
    let (config, now) = (Config::default(), Instant::now());
    let (a, b) = (Token::new(&config, 5, 50), Token::new(&config, 6, 60));
    let ends = [Association::joined(&config, &a, &b, now)?, Association::joined(&config, &b, &a, now)?];
    both_ways(&mut Link { ends, now })
}

/// Each side has its own token as it made it, and the peer's as it read it of an INIT chunk.
#[test]
fn by_tokens_in_init_chunks() -> Result<(), Error> {
    let (config, now) = (Config::default(), Instant::now());
    let token = |identity: Identity| Token::new(&config, identity.tag, identity.initial_tsn);
    let (a, b) = (token(Identity::random()?), token(Identity::random()?));
    let (from_a, from_b) = (Token::from_init(&a.to_init()?)?, Token::from_init(&b.to_init()?)?);
    assert!(a != b && from_a == a && from_b == b);
    let ends = [Association::joined(&config, &a, &from_b, now)?, Association::joined(&config, &b, &from_a, now)?];
    both_ways(&mut Link { ends, now })
}

#[test]
fn a_stream_whose_type_is_unknown_keeps_the_type_of_a_message() -> Result<(), Error> {
    let mut link = Link::established(&Config::default())?;
    link.ends[0].open_stream(0, PayloadType::Unknown)?.write_as(PayloadType::Dcep, b"x")?;
    link.settle()?;
    let mut buffer = [0; 1];
    let read = link.ends[1].stream(0).read(&mut buffer)?.expect("the message came");
    assert_eq!((read.payload_type, read.bytes), (PayloadType::Dcep, &b"x"[..]));
    Ok(())
}

#[test]
fn an_association_goes_to_another_thread() -> Result<(), Error> {
    let mut link = Link::established(&Config::default())?;
    link.ends[0].open_stream(1, PayloadType::Binary)?;
    let moved = std::thread::spawn(move || exchange(&mut link, 0, 1, PayloadType::Binary));
    moved.join().expect("the thread ended well")
}

#[test]
fn a_length_is_known_before_the_message_is_read() -> Result<(), Error> {
    let mut link = Link::established(&Config::default())?;
    assert_eq!(link.ends[1].stream(3).next_length(), Err(Error::NoStream));
    link.ends[0].open_stream(3, PayloadType::Binary)?;
    for (number, length) in [1, 1200, 65536].into_iter().enumerate() {
        let sent = message(length, number);
        link.ends[0].stream(3).write(&sent)?;
        link.settle()?;
        let mut stream = link.ends[1].stream(3);
        assert_eq!((stream.next_length()?, stream.next_length()?), (Some(length), Some(length)));
        let mut buffer = vec![0; length];
        assert_eq!(stream.read(&mut buffer[1..]), Err(Error::NoRoom { needed: length }));
        assert!(stream.read(&mut buffer)?.is_some_and(|message| message.bytes == sent));
        assert_eq!(stream.next_length()?, None);
    }

    link.ends[0].stream(3).write(b"last")?;
    link.settle()?;
    assert_eq!(link.ends[1].stream(3).next_length()?, Some(4));
    link.ends[1].close()?;
    let mut stream = link.ends[1].stream(3);
    assert_eq!(stream.next_length()?, Some(4));
    assert_eq!(stream.read_vec()?, Some((PayloadType::Binary, b"last".to_vec())));
    assert_eq!(stream.next_length(), Err(Error::NoStream));
    Ok(())
}

/// CRC32c of a packet whose checksum is 0 (RFC 4960 appendix B).
fn checksum(packet: &[u8]) -> [u8; 4] {
    let fold = |sum: u32, _| (sum >> 1) ^ (if sum & 1 == 1 { 0x82f6_3b78 } else { 0 });
    let sum = packet.iter().fold(u32::MAX, |sum, byte| (0..8).fold(sum ^ u32::from(*byte), fold));
    (!sum).to_le_bytes()
}

/// A client that breaks the rules opens the stream 1 by DATA without a byte.
fn after_an_empty_message() -> Result<Link, Error> {
    let mut link = Link::established(&Config::default())?;
    link.ends[0].open_stream(1, PayloadType::Binary)?.write(b"x")?;
    let mut buffer = [0; sctp_assoc::MAX_DATAGRAM];
    let length = link.ends[0].poll_transmit(link.now, &mut buffer)?.expect("DATA").len();
    assert_eq!(length, 32);
    let packet = &mut buffer[..28]; // without its byte, and the padding
    packet[15] = 16; // the length of the chunk
    packet[8..12].fill(0);
    let sum = checksum(packet);
    packet[8..12].copy_from_slice(&sum);
    link.ends[1].handle_datagram(link.now, packet)?;
    Ok(link)
}

/// That is a message, too, and none that can be written.
#[test]
fn an_empty_message_is_read() -> Result<(), Error> {
    let mut link = after_an_empty_message()?;
    let mut stream = link.ends[1].stream(1);
    assert_eq!(stream.read_vec()?, Some((PayloadType::Binary, Vec::new())));
    assert_eq!(stream.read_vec()?, None);
    assert_eq!(stream.write(b""), Err(Error::EmptyMessage));
    Ok(())
}

#[test]
fn an_empty_message_has_no_length_and_is_dropped() -> Result<(), Error> {
    let mut link = after_an_empty_message()?;
    assert_eq!(link.ends[1].stream(1).next_length()?, None);
    assert_eq!(link.ends[1].stream(1).read_vec()?, None);

    let mut link = after_an_empty_message()?;
    link.ends[0].stream(1).write(b"next")?;
    link.settle()?;
    let mut stream = link.ends[1].stream(1);
    assert_eq!(stream.next_length()?, Some(4));
    assert_eq!(stream.read_vec()?, Some((PayloadType::Binary, b"next".to_vec())));
    assert_eq!(stream.read_vec()?, None);
    Ok(())
}
