//! What is counted, which streams there are, and the values of a stream that are asked and set.
mod support;

use sctp_assoc::{Association, Config, Error, Event, PayloadType, Stream};
use std::time::Duration;
use support::{counters, Link};

fn events(link: &mut Link, end: usize) -> Result<Vec<Event>, Error> {
    std::iter::from_fn(|| link.ends[end].poll_event().transpose()).collect()
}

#[test]
fn a_message_is_counted_and_passes_the_marks() -> Result<(), Error> {
    let mut link = Link::established(&Config::default())?;
    let mut stream = link.ends[0].open_stream(7, PayloadType::Binary)?;
    assert_eq!((stream.low_mark()?, stream.high_mark()?), (0, usize::MAX));
    stream.set_low_mark(10)?;
    stream.set_high_mark(100)?;
    assert_eq!((stream.low_mark()?, stream.high_mark()?), (10, 100));
    stream.write(&[7; 100])?;
    assert_eq!(stream.buffered_amount()?, 100);
    assert_eq!(events(&mut link, 0)?, [Event::BufferedAmountHigh { stream: 7 }]);
    assert_eq!(link.ends[0].rto(), Duration::from_millis(500));

    link.settle()?;
    assert!(link.ends[1].stream(7).read_vec()?.is_some());
    assert_eq!(events(&mut link, 0)?, [Event::BufferedAmountLow { stream: 7 }]);
    assert_eq!(link.ends[0].rto(), Duration::from_millis(600));
    assert_eq!(link.ends[0].stream(7).stats()?, counters((1, 100), (0, 0)));
    assert_eq!(link.ends[1].stream(7).stats()?, counters((0, 0), (1, 100)));
    let (writer, reader) = (link.ends[0].stats(), link.ends[1].stats());
    assert_eq!((writer.data_chunks, writer.sacks, writer.retransmission_timeouts), (0, 1, 0));
    assert_eq!((reader.data_chunks, reader.sacks, reader.fast_retransmissions), (1, 0, 0));
    Ok(())
}

#[test]
fn streams_are_listed_and_set() -> Result<(), Error> {
    let mut link = Link::established(&Config::default())?;
    let end = &mut link.ends[0];
    assert_eq!(end.stream_ids()?, []);
    let mut stream = end.open_stream(7, PayloadType::Binary)?;
    assert_eq!(stream.payload_type()?, PayloadType::Binary);
    stream.set_payload_type(PayloadType::String)?;
    assert_eq!(stream.payload_type()?, PayloadType::String);
    end.open_stream(3, PayloadType::Binary)?;
    assert_eq!(end.stream_ids()?, [3, 7]);
    end.set_max_send_message_size(5);
    assert_eq!(end.stream(7).write(b"longer"), Err(Error::MessageTooLong));
    end.stream(7).write(b"short")?;

    link.settle()?;
    let read = link.ends[1].stream(7).read_vec()?;
    assert_eq!(read, Some((PayloadType::String, b"short".to_vec())));
    refuses(&mut link.ends[0].stream(8));
    Ok(())
}

/// What is asked at once is what each call answers by itself.
fn assert_metrics_agree(end: &Association) {
    let metrics = end.metrics();
    assert_eq!((metrics.path, metrics.rto, metrics.totals), (end.path(), end.rto(), end.stats()));
    assert_eq!((metrics.traffic, metrics.next_timeout), (end.traffic(), end.poll_timeout()));
    assert_eq!((metrics.established, metrics.drained), (end.is_established(), end.is_drained()));
    let state = (metrics.closing, metrics.closed, metrics.failed);
    assert_eq!(state, (end.is_closing(), end.is_closed(), end.is_failed()));
}

#[test]
fn all_numbers_are_asked_at_once() -> Result<(), Error> {
    let mut link = Link::new(&Config::default())?;
    link.ends.iter().for_each(assert_metrics_agree);
    link.settle()?;
    link.ends[0].open_stream(7, PayloadType::Binary)?.write(&[7; 100])?;
    link.settle()?;
    link.ends.iter().for_each(assert_metrics_agree);
    let metrics = link.ends[0].metrics();
    assert_eq!((metrics.traffic.datagrams_sent, metrics.totals.sacks), (3, 1));
    assert!(metrics.established && !metrics.closed && metrics.next_timeout.is_none());

    link.ends[0].stream(7).write(&[7; 100])?;
    link.ends[0].poll_transmit(link.now, &mut [0; sctp_assoc::MAX_DATAGRAM])?;
    assert_metrics_agree(&link.ends[0]);
    let in_flight = link.ends[0].metrics();
    assert_eq!((in_flight.path.bytes_in_flight, in_flight.next_timeout), (100, Some(link.now + metrics.rto)));

    link.ends[0].close()?;
    assert_metrics_agree(&link.ends[0]);
    let closed = link.ends[0].metrics();
    assert!(closed.closed && closed.drained && !closed.established && closed.next_timeout.is_none());
    assert_ne!(closed, metrics);
    Ok(())
}

/// There is no such stream.
fn refuses(stream: &mut Stream<'_>) {
    assert_eq!(stream.stats(), Err(Error::NoStream));
    assert_eq!(stream.payload_type(), Err(Error::NoStream));
    assert_eq!(stream.set_payload_type(PayloadType::String), Err(Error::NoStream));
    for asked in [stream.buffered_amount(), stream.low_mark(), stream.high_mark()] {
        assert_eq!(asked, Err(Error::NoStream));
    }
    assert_eq!(stream.set_low_mark(1), Err(Error::NoStream));
    assert_eq!(stream.set_high_mark(1), Err(Error::NoStream));
}
