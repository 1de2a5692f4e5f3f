//! Runs the Rust code of README and docs/GUIDE.md, which `build.rs` takes out of the pages. Of the guide a client and a
//! server, whose datagrams go through two queues, shake hands, exchange a message in each direction, close the stream
//! and shut down. Two others are observed, and one aborts. Two more shut down in a thread each, one keeps a timer of
//! silence, and one loses the consent of ICE. With the feature `channels` two more have data channels.
#![cfg(test)]
use sctp_assoc::{Association, Config, Error, Event, Fate, Identity, PayloadType, Reliability, MAX_DATAGRAM};
use std::io::Write;
use std::sync::mpsc::{channel, Receiver, Sender};
use std::sync::{Arc, Mutex};
use std::thread;
use std::time::{Duration, Instant};

#[cfg(feature = "channels")]
mod channels;

struct End {
    association: Association,
    network: Network,
    /// The messages that came.
    messages: Vec<(u16, Vec<u8>)>,
}

/// What an end sent; or the way to and from the peer, where that is in another thread.
#[derive(Default)]
struct Network {
    sent: Vec<Datagram>,
    peer: Option<(Sender<Datagram>, Receiver<Datagram>)>,
}

type Datagram = Vec<u8>;

fn send_datagram(network: &mut Network, datagram: &[u8]) {
    match &network.peer {
        Some((to, _)) => drop(to.send(datagram.to_vec())), // lost where the peer is over
        None => network.sent.push(datagram.to_vec()),
    }
}

/// A datagram of the peer; None once a timer expires.
fn next_datagram(end: &End) -> Option<Datagram> {
    let (_, from) = end.network.peer.as_ref()?;
    let due = end.association.poll_timeout().map_or(Duration::MAX, |due| due.saturating_duration_since(Instant::now()));
    from.recv_timeout(due.min(Duration::from_secs(1))).ok()
}

fn take_message(end: &mut End, stream: u16, message: Vec<u8>) {
    end.messages.push((stream, message));
}

include!(concat!(env!("OUT_DIR"), "/guide.rs"));

// What the guide says in words, or shows in C alone.

/// Makes a client or a server.
fn begin(is_client: bool, now: Instant) -> Result<Association, Error> {
    let made = if is_client { Association::client } else { Association::server };
    made(&Config::default(), &Identity::random()?, now)
}

fn turn(end: &mut End, now: Instant, datagram: Option<&[u8]>) -> Result<(), Error> {
    if end.association.poll_timeout().is_some_and(|due| due <= now) {
        end.association.handle_timeout(now)?;
    }
    if let Some(datagram) = datagram {
        end.association.handle_datagram(now, datagram)?;
    }
    take_events(end)?;
    let mut buffer = vec![0; MAX_DATAGRAM];
    loop {
        while let Some(datagram) = end.association.poll_transmit(now, &mut buffer)? {
            send_datagram(&mut end.network, datagram);
        }
        if !take_events(end)? {
            return Ok(());
        }
    }
}

/// The loop of one end.
fn drive(end: &mut End) -> Result<(), Error> {
    turn(end, Instant::now(), None)?;
    while !end.association.is_drained() {
        let datagram = next_datagram(end);
        turn(end, Instant::now(), datagram.as_deref())?;
    }
    Ok(())
}

/// ICE has no consent any more.
fn lose_consent(end: &mut End) -> Result<(), Error> {
    end.association.close()?; // an ABORT may not go out
    take_events(end)?; // Lost is one of them
    Ok(())
}

struct Silence {
    /// When a datagram was taken last.
    heard: Instant,
    /// When a HEARTBEAT was sent last.
    asked: Option<Instant>,
}

impl Silence {
    /// After each datagram that was handed in.
    fn hear(&mut self, fate: Fate, now: Instant) {
        if fate == Fate::Taken {
            self.heard = now;
        }
    }

    /// In each turn, before it takes events. Answers until when to sleep at most; None once the association ended.
    fn look(&mut self, association: &mut Association, now: Instant) -> Result<Option<Instant>, Error> {
        let (again, gone) = (Duration::from_secs(5), self.heard + Duration::from_secs(30));
        if now >= gone {
            association.abort(b"silent")?;
            return Ok(None);
        }
        let first = self.heard + Duration::from_secs(10);
        let mut ask = self.asked.map_or(first, |asked| first.max(asked + again));
        if now >= ask {
            let _ = association.heartbeat(now); // refused where the association ends
            self.asked = Some(now);
            ask = now + again;
        }
        Ok(Some(ask.min(gone)))
    }
}

fn end_of(association: &Association) -> String {
    match association.end() {
        None => "it goes on".into(),
        Some(sctp_assoc::End::AbortCame(cause)) => format!("the peer aborted it: {cause:?}"),
        Some(end) => format!("{end:?}"),
    }
}

fn drive_both(first: &mut End, second: &mut End) -> Result<(), Error> {
    thread::scope(|scope| {
        let other = scope.spawn(|| drive(second));
        drive(first)?;
        other.join().expect("no call panics")
    })
}

mod readme {
    include!(concat!(env!("OUT_DIR"), "/readme.rs"));
}

#[test]
fn the_readme_delivers_its_message() -> Result<(), Error> {
    readme::main()
}

/// Turns of both ends until none has a datagram for the other.
fn go_on(ends: &mut [End; 2], now: Instant) -> Result<(), Error> {
    let [a, b] = ends;
    turn(a, now, None)?;
    turn(b, now, None)?;
    while !a.network.sent.is_empty() || !b.network.sent.is_empty() {
        for datagram in std::mem::take(&mut a.network.sent) {
            turn(b, now, Some(&datagram))?;
        }
        for datagram in std::mem::take(&mut b.network.sent) {
            turn(a, now, Some(&datagram))?;
        }
    }
    Ok(())
}

/// Two ends that shook hands at this moment, and wrote a message each, which are acknowledged 1,000 ms later.
fn ends_that_said_hello(began: Instant) -> Result<[End; 2], Box<dyn std::error::Error>> {
    let end = |is_client| -> Result<End, Box<dyn std::error::Error>> {
        Ok(End { association: begin(is_client, began)?, network: Network::default(), messages: Vec::new() })
    };
    let mut ends = [end(true)?, end(false)?];
    go_on(&mut ends, began)?;
    for end in &ends {
        assert_eq!(end.messages, [(1, b"hello".to_vec())]);
    }
    for tenths in 1..=10 {
        go_on(&mut ends, began + Duration::from_millis(100 * tenths))?; // what was delayed is acknowledged
    }
    Ok(ends)
}

#[test]
fn the_guide_carries_a_message_each_way() -> Result<(), Box<dyn std::error::Error>> {
    let began = Instant::now();
    let at = |ms| began + Duration::from_millis(ms);
    let mut ends = ends_that_said_hello(began)?;
    ends[0].association.stream(1).close()?;
    go_on(&mut ends, at(1100))?;
    assert_eq!(ends[1].association.stream_ids()?, []);
    ends[0].association.shutdown()?;
    go_on(&mut ends, at(1200))?;
    assert!(ends.iter().all(|end| end.association.is_drained()));
    Ok(())
}

#[test]
fn the_guide_drives_an_end_in_each_of_two_threads() -> Result<(), Box<dyn std::error::Error>> {
    let [mut first, mut second] = ends_that_said_hello(Instant::now())?;
    let ((to_first, from_second), (to_second, from_first)) = (channel(), channel());
    first.network.peer = Some((to_second, from_second));
    second.network.peer = Some((to_first, from_first));
    first.association.shutdown()?;
    drive_both(&mut first, &mut second)?;
    assert!(first.association.is_drained() && second.association.is_drained());
    Ok(())
}

#[test]
fn the_guide_asks_a_silent_peer_and_ends() -> Result<(), Box<dyn std::error::Error>> {
    let began = Instant::now();
    let at = |seconds| began + Duration::from_secs(seconds);
    let [mut end, mut peer] = ends_that_said_hello(began)?;
    let (end, mut datagram) = (&mut end.association, [0; MAX_DATAGRAM]);
    let mut silence = Silence { heard: began, asked: None };
    silence.hear(Fate::Taken, at(1));
    silence.hear(Fate::OtherTag, at(2));
    assert_eq!(silence.look(end, at(10))?, Some(at(11)));
    assert!(end.poll_transmit(at(10), &mut datagram)?.is_none());
    for _ in 0..2 {
        assert_eq!(silence.look(end, at(11))?, Some(at(16)));
    }
    assert!(end.poll_transmit(at(11), &mut datagram)?.is_some());
    assert!(end.poll_transmit(at(11), &mut datagram)?.is_none());
    assert_eq!(silence.look(end, at(30))?, Some(at(31)));
    assert!(!end.is_drained());
    assert_eq!(silence.look(end, at(31))?, None);
    assert_eq!(end.end(), Some(sctp_assoc::End::Aborted));
    lose_consent(&mut peer)?;
    assert_eq!(peer.association.end(), Some(sctp_assoc::End::Closed));
    assert_eq!(peer.association.poll_event()?, None);
    Ok(())
}

#[test]
fn the_guide_answers_a_peer_that_starts_anew() -> Result<(), Box<dyn std::error::Error>> {
    let began = Instant::now();
    let now = began + Duration::from_secs(2);
    let [mut client, mut server] = ends_that_said_hello(began)?;
    let mut beside = None;
    client.association = begin(true, now)?;
    turn(&mut client, now, None)?;
    while !client.network.sent.is_empty() || !server.network.sent.is_empty() {
        for datagram in std::mem::take(&mut client.network.sent) {
            receive(&mut server, &mut beside, now, &datagram)?;
        }
        for datagram in std::mem::take(&mut server.network.sent) {
            turn(&mut client, now, Some(&datagram))?;
        }
    }
    assert!(beside.is_none() && client.association.is_established() && server.association.is_established());
    assert_eq!([client.messages.len(), server.messages.len()], [2, 2]);
    Ok(())
}

/// Lines that an observer writes.
#[derive(Clone, Default)]
struct Lines(Arc<Mutex<Vec<u8>>>);

impl Write for Lines {
    fn write(&mut self, bytes: &[u8]) -> std::io::Result<usize> {
        self.0.lock().expect("nobody panics").write(bytes)
    }

    fn flush(&mut self) -> std::io::Result<()> {
        Ok(())
    }
}

#[test]
fn the_guide_tells_why_an_association_ended() -> Result<(), Box<dyn std::error::Error>> {
    let (now, lines) = (Instant::now(), Lines::default());
    let end = |is_client| -> Result<End, Box<dyn std::error::Error>> {
        let mut association = begin(is_client, now)?;
        write_lines(&mut association, now, lines.clone());
        Ok(End { association, network: Network::default(), messages: Vec::new() })
    };
    let mut ends = [end(true)?, end(false)?];
    go_on(&mut ends, now)?;
    assert_eq!(end_of(&ends[0].association), "it goes on");
    ends[0].association.abort(b"bye")?;
    go_on(&mut ends, now)?;
    assert_eq!(end_of(&ends[0].association), "Aborted");
    let told = end_of(&ends[1].association);
    assert_eq!(told, "the peer aborted it: Cause { code: 12, reason: \"bye\" }");
    let sent: u64 = ends.iter().map(|end| end.association.traffic().datagrams_sent).sum();
    let lines = String::from_utf8(lines.0.lock().expect("nobody panics").clone())?;
    assert_eq!(lines.lines().count() as u64, 2 * sent); // one at each side
    assert!(lines.lines().all(|line| line.starts_with("0 1388"))); // at 0 ms, from the port 5000
    Ok(())
}
