//! What passed through an association, why it ended at either side, and what an observer is told.
mod support;

use sctp_assoc::{
    Association, Config, Direction, End, Error, Event, Fate, PayloadType, Profile, Reason, Traffic, MAX_DATAGRAM,
};
use std::sync::{Arc, Mutex};
use std::time::Duration;
use support::{pass_on, Link};

/// Datagrams and bytes of each way that an observer was told of.
#[derive(Default)]
struct Told {
    sent: (u64, u64),
    received: (u64, u64),
}

fn observe(end: &mut Association) -> Arc<Mutex<Told>> {
    let told = Arc::new(Mutex::new(Told::default()));
    let shared = Arc::clone(&told);
    end.observe(move |direction, _, datagram| {
        let mut told = shared.lock().expect("nobody else panics");
        let way = match direction {
            Direction::Sent => &mut told.sent,
            Direction::Received => &mut told.received,
        };
        *way = (way.0 + 1, way.1 + datagram.len() as u64);
    });
    told
}

fn ways(traffic: Traffic) -> [(u64, u64); 2] {
    [(traffic.datagrams_sent, traffic.bytes_sent), (traffic.datagrams_received, traffic.bytes_received)]
}

#[test]
fn what_is_sent_is_counted_and_told_at_both_sides() -> Result<(), Error> {
    let mut link = Link::new(&Config::default())?;
    let told = observe(&mut link.ends[0]);
    link.settle()?;
    assert_eq!(link.ends[0].traffic().datagrams_sent, 2, "INIT and COOKIE ECHO");
    link.ends[0].open_stream(1, PayloadType::Binary)?.write(&[7; 100])?;
    link.settle()?;
    let [ours, theirs] = [ways(link.ends[0].traffic()), ways(link.ends[1].traffic())];
    assert_eq!(ours[0].0, 3);
    assert_eq!(ours, [theirs[1], theirs[0]]);
    let told = told.lock().expect("nobody panics");
    assert_eq!(ours, [told.sent, told.received]);
    Ok(())
}

/// The server answers what is not for it by a fate, and counts and tells nothing.
#[test]
fn what_is_not_taken_is_not_counted() -> Result<(), Error> {
    let mut link = Link::established(&Config::default())?;
    let told = observe(&mut link.ends[1]);
    let before = link.ends[1].traffic();
    assert_eq!(link.ends[1].handle_datagram(link.now, b"no packet")?, Fate::NoPacket);
    assert_eq!(link.ends[1].traffic(), before);
    assert_eq!(told.lock().expect("nobody panics").received, (0, 0));
    Ok(())
}

fn is_lost(end: &mut Association) -> Result<bool, Error> {
    let events: Vec<Event> = std::iter::from_fn(|| end.poll_event().transpose()).collect::<Result<_, _>>()?;
    Ok(end.is_drained() && events.last() == Some(&Event::Lost { reason: Reason::Closed }))
}

#[test]
fn an_abort_tells_the_peer_why() -> Result<(), Error> {
    let mut link = Link::established(&Config::default())?;
    assert_eq!(link.ends[0].end(), None);
    assert_eq!(link.ends[0].abort(&[0; 65528]), Err(Error::MessageTooLong));
    link.ends[0].abort(b"moved")?;
    link.settle()?;
    assert_eq!(link.ends[0].end(), Some(End::Aborted));
    let Some(End::AbortCame(cause)) = link.ends[1].end() else { panic!("{:?}", link.ends[1].end()) };
    assert_eq!((cause.code, cause.reason()), (12, &b"moved"[..]));
    assert_eq!(format!("{cause:?}"), "Cause { code: 12, reason: \"moved\" }");
    assert!(is_lost(&mut link.ends[0])? && is_lost(&mut link.ends[1])?);
    Ok(())
}

/// Each side has its own end; the first one stays.
#[test]
fn a_close_and_a_shutdown_are_told_apart() -> Result<(), Error> {
    let mut link = Link::established(&Config::default())?;
    link.ends[0].close()?;
    link.ends[0].abort(b"")?;
    link.settle()?;
    assert_eq!((link.ends[0].end(), link.ends[1].end()), (Some(End::Closed), None));

    let mut link = Link::established(&Config::default())?;
    link.ends[1].shutdown()?;
    link.settle()?;
    assert_eq!((link.ends[0].end(), link.ends[1].end()), (Some(End::ShutDown), Some(End::ShutDown)));
    Ok(())
}

#[test]
fn a_receive_buffer_that_is_exhausted_is_told() -> Result<(), Error> {
    let mut config = Config::default();
    config.max_receive_buffer_size = 1500;
    let mut link = Link::established(&config)?;
    link.ends[0].open_stream(1, PayloadType::Binary)?.write(&[7; 6000])?;
    while !link.ends[1].is_drained() {
        link.now += Duration::from_secs(1);
        link.settle()?;
        link.ends[0].handle_timeout(link.now)?;
    }
    assert_eq!(link.ends[1].end(), Some(End::BufferExhausted));
    while link.ends[1].poll_event()?.is_some() {}
    assert_eq!(link.ends[1].end(), Some(End::BufferExhausted));
    Ok(())
}

/// By the port's rules nothing is told of it.
#[test]
fn a_silent_peer_is_told() -> Result<(), Error> {
    for profile in [Profile::Rfc, Profile::Port] {
        let mut config = Config::default();
        config.profile = profile;
        config.max_data_retransmits = Some(2);
        let mut link = Link::established(&config)?;
        let (mut now, mut datagram) = (link.now, [0; MAX_DATAGRAM]);
        let end = &mut link.ends[0];
        end.open_stream(1, PayloadType::Binary)?.write(&[7; 100])?;
        for _ in 0..3 {
            assert_eq!(end.end(), None);
            while end.poll_transmit(now, &mut datagram)?.is_some() {}
            now = end.poll_timeout().expect("DATA is timed");
            end.handle_timeout(now)?;
        }
        assert_eq!(end.end(), (profile == Profile::Rfc).then_some(End::Silent));
        assert_eq!(end.poll_timeout(), None);
        assert_eq!(is_lost(end)?, profile == Profile::Rfc);
    }
    Ok(())
}

/// 4,380 bytes is the congestion window at first (RFC 4960 section 7.2.1).
#[test]
fn the_path_is_told() -> Result<(), Error> {
    let config = Config::default();
    let mut link = Link::established(&config)?;
    let path = link.ends[0].path();
    assert_eq!((path.mtu, path.congestion_window), (config.max_payload_size + 28, 4380));
    assert_eq!((path.peer_window, path.bytes_in_flight), (config.max_receive_buffer_size, 0));
    link.ends[0].open_stream(1, PayloadType::Binary)?.write(&[7; 1000])?;
    let [client, server] = &mut link.ends;
    pass_on(client, server, link.now)?;
    assert_eq!(link.ends[0].path().bytes_in_flight, 1000);
    link.settle()?; // the acknowledgement is delayed by 200 ms
    assert_eq!(link.ends[0].path().smoothed_round_trip, Duration::from_millis(200));
    Ok(())
}
