//! A stream that is stopped or closed ends at both sides, which are told, and it can be opened anew.
mod support;

use sctp_assoc::{Config, Counters, Error, Event, PayloadType, Stream};
use support::{counters, Link};

const STREAM: u16 = 5;

fn events(link: &mut Link, end: usize) -> Result<Vec<Event>, Error> {
    std::iter::from_fn(|| link.ends[end].poll_event().transpose()).collect()
}

/// What tells the end of a stream on which a message of 3 bytes went one way.
fn end_after(counters: Counters) -> [Event; 3] {
    [
        Event::StreamEnded { stream: STREAM, counters },
        Event::Finished { stream: STREAM },
        Event::ResetComplete { stream: STREAM },
    ]
}

fn ended_by(call: fn(&mut Stream<'_>) -> Result<(), Error>, refused: Error) -> Result<(), Error> {
    let mut link = Link::established(&Config::default())?;
    link.ends[0].open_stream(STREAM, PayloadType::Binary)?.write(b"abc")?;
    link.settle()?;
    assert!(link.ends[1].stream(STREAM).read_vec()?.is_some());
    let mut stream = link.ends[0].stream(STREAM);
    call(&mut stream)?;
    assert_eq!(stream.write(b"late"), Err(refused));
    assert_eq!(stream.read_vec(), Err(Error::StreamClosed));
    link.settle()?;

    for (end, counters) in [counters((1, 3), (0, 0)), counters((0, 0), (1, 3))].into_iter().enumerate() {
        let told = events(&mut link, end)?;
        assert!(told.ends_with(&end_after(counters)), "{told:?}");
        assert_eq!(link.ends[end].stream_ids()?, []);
    }
    link.ends[1].open_stream(STREAM, PayloadType::Binary)?.write(b"anew")?;
    link.settle()?;
    assert_eq!(link.ends[0].stream(STREAM).read_vec()?, Some((PayloadType::Binary, b"anew".to_vec())));
    Ok(())
}

#[test]
fn by_a_stop() -> Result<(), Error> {
    ended_by(|stream| stream.stop(), Error::ResetPending)
}

#[test]
fn by_a_close() -> Result<(), Error> {
    ended_by(|stream| stream.close(), Error::StreamClosed)
}
