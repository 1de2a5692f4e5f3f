//! A shutdown of either side, or of both at once: what was written comes before the end, which both are told.
mod support;

use sctp_assoc::{Association, Config, EndpointEvent, Error, Event, PayloadType, Reason};
use support::{pass_on, Link};

const STREAM: u16 = 5;

fn events(end: &mut Association) -> Result<Vec<Event>, Error> {
    std::iter::from_fn(|| end.poll_event().transpose()).collect()
}

fn is_over(end: &mut Association) -> Result<(), Error> {
    let told = events(end)?;
    assert_eq!(told.last(), Some(&Event::Lost { reason: Reason::Closed }), "{told:?}");
    assert!(end.is_drained() && end.is_closed() && !end.is_closing() && !end.is_failed());
    assert_eq!(end.poll_timeout(), None);
    assert_eq!(end.shutdown(), Err(Error::ShutdownNotEstablished));
    Ok(())
}

/// A message is written, the sides shut down, and the message comes and then the end.
fn ended_by(sides: &[usize]) -> Result<(), Error> {
    let mut link = Link::established(&Config::default())?;
    let message = vec![7; 6000];
    link.ends[0].open_stream(STREAM, PayloadType::Binary)?.write(&message)?;
    for &side in sides {
        let end = &mut link.ends[side];
        end.shutdown()?;
        assert!(end.is_closing() && !end.is_established() && !end.is_drained());
        assert_eq!(end.poll_endpoint_event(), Some(EndpointEvent::Drained));
        assert_eq!(end.poll_endpoint_event(), None);
        assert_eq!(end.shutdown(), Err(Error::ShutdownNotEstablished));
    }
    if sides.contains(&0) {
        assert_eq!(link.ends[0].stream(STREAM).write(b"late"), Err(Error::NotEstablished));
        assert_eq!(link.ends[0].stream(STREAM).stop(), Err(Error::CannotReset));
    }
    let mut read = None;
    while read.is_none() {
        let [client, server] = &mut link.ends;
        assert!(pass_on(client, server, link.now)? | pass_on(server, client, link.now)?, "the message does not come");
        read = link.ends[1].stream(STREAM).read_vec().unwrap_or(None);
    }
    assert_eq!(read, Some((PayloadType::Binary, message)));
    link.settle()?;
    link.ends.iter_mut().try_for_each(is_over)
}

#[test]
fn of_the_client() -> Result<(), Error> {
    ended_by(&[0])
}

#[test]
fn of_the_server() -> Result<(), Error> {
    ended_by(&[1])
}

#[test]
fn of_both_at_once() -> Result<(), Error> {
    ended_by(&[0, 1])
}
