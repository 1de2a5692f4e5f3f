//! Messages that come back, over UDP (RFC 6951): a server that echoes, and a client that sends COUNT messages of 1 to
//! 8,192 bytes and looks at what comes back. Then the client closes the stream, which ends at both sides, and shuts the
//! association down, which ends at both sides, too.
//!
//!     cargo run --example echo -- server 9899              serves up to 16 clients; at port 0 it takes a free one
//!     cargo run --example echo -- client 127.0.0.1:9899 100
use sctp_assoc::{Association, Config, Event, Fate, Identity, PayloadType, Stream, MAX_DATAGRAM};
use std::error::Error;
use std::io::ErrorKind;
use std::mem;
use std::net::{SocketAddr, UdpSocket};
use std::process::ExitCode;
use std::time::{Duration, Instant};

const STREAM: u16 = 1;
/// Messages that the client has out at a time, so few that the sockets have room for them.
const ON_THE_WAY: usize = 10;
/// So long a shutdown may take. A peer that is gone never answers it.
const END_WITHIN: Duration = Duration::from_secs(20);
/// Clients that a server has at a time.
const CLIENTS: usize = 16;
/// After so long without a datagram a client may lose its place to a new one.
const SILENT: Duration = Duration::from_secs(60);

type Result<T> = std::result::Result<T, Box<dyn Error>>;

/// A UDP socket, and the associations behind it: one of a client, up to [`CLIENTS`] of a server.
struct Echo {
    udp: UdpSocket,
    ends: Vec<End>,
    /// Of a server: for a client that begins anew an end beside its old one, until the new handshake is done.
    besides: Vec<End>,
    client: Option<Client>,
    /// Room for a datagram, of either way.
    buffer: Vec<u8>,
}

/// One association, and the peer at the other end of it.
struct End {
    peer: SocketAddr,
    association: Association,
    /// Its handshake is done.
    is_up: bool,
    /// When a datagram came last that was for it.
    heard: Instant,
}

/// How far a client is.
struct Client {
    count: usize,
    sent: usize,
    echoed: usize,
    ends_until: Option<Instant>,
}

/// The client's message with this number, in both of its ways.
fn message(number: usize) -> Vec<u8> {
    let length = 1 + number * 977 % 8192;
    (number..number + length).map(|byte| byte as u8).collect()
}

/// The next message. A stream that ended is read no more.
fn read(stream: &mut Stream<'_>) -> Result<Option<(PayloadType, Vec<u8>)>> {
    match stream.read_vec() {
        Err(sctp_assoc::Error::NoStream) => Ok(None),
        answer => Ok(answer?),
    }
}

/// A message goes back, unless the stream has ended meanwhile, the client shuts down, or the message is empty, as it
/// comes from a peer that breaks the rules.
fn send_back(stream: &mut Stream<'_>, payload_type: PayloadType, bytes: &[u8]) -> Result<()> {
    match stream.write_as(payload_type, bytes) {
        Err(
            sctp_assoc::Error::ResetPending
            | sctp_assoc::Error::NoStream
            | sctp_assoc::Error::NotEstablished
            | sctp_assoc::Error::EmptyMessage,
        ) => Ok(()),
        answer => Ok(answer?),
    }
}

impl Client {
    fn has_all(&self) -> bool {
        self.echoed == self.count
    }

    fn send_more(&mut self, association: &mut Association) -> Result<()> {
        while self.sent < self.count.min(self.echoed + ON_THE_WAY) {
            association.stream(STREAM).write(&message(self.sent))?;
            self.sent += 1;
        }
        Ok(())
    }
}

impl End {
    fn new(peer: SocketAddr, association: Association) -> End {
        End { peer, association, is_up: false, heard: Instant::now() }
    }

    /// Sends what is due. Most datagrams have up to the payload size and 28 bytes; one that names many gaps or streams
    /// may have more, and the network then carries it in parts.
    fn send_all(&mut self, udp: &UdpSocket, buffer: &mut [u8]) -> Result<()> {
        while let Some(datagram) = self.association.poll_transmit(Instant::now(), buffer)? {
            let _ = udp.send_to(datagram, self.peer); // what the socket does not take is lost, as on the way
        }
        Ok(())
    }

    /// Answers what became of the datagram.
    fn hand_in(&mut self, datagram: &[u8]) -> Result<Fate> {
        let fate = self.association.handle_datagram(Instant::now(), datagram)?;
        if fate == Fate::Taken {
            self.heard = Instant::now();
        }
        Ok(fate)
    }

    /// Whether it may give way to a new client.
    fn is_idle(&self) -> bool {
        !self.is_up || self.heard.elapsed() > SILENT
    }

    /// A message of the server's client goes back, whatever is ready.
    fn echo(&mut self, id: u16) -> Result<()> {
        let mut stream = self.association.stream(id);
        while let Some((payload_type, bytes)) = read(&mut stream)? {
            send_back(&mut stream, payload_type, &bytes)?;
        }
        Ok(())
    }

    /// Each stream that the peer opens is taken from those that wait to be accepted, or these would grow in number.
    fn on_server_event(&mut self, event: Event) -> Result<()> {
        match event {
            Event::Connected => self.is_up = true,
            Event::Opened { .. } => drop(self.association.accept_stream()),
            Event::Readable { stream } => self.echo(stream)?,
            _ => {}
        }
        Ok(())
    }

    /// A client looks at what comes back, and closes the stream after the last message.
    fn look_at(&mut self, id: u16, client: &mut Client) -> Result<()> {
        let mut stream = self.association.stream(id);
        while let Some((_, bytes)) = read(&mut stream)? {
            if bytes != message(client.echoed) {
                return Err("another message came back".into());
            }
            client.echoed += 1;
        }
        if client.has_all() {
            return Ok(stream.close()?);
        }
        client.send_more(&mut self.association)
    }

    fn on_client_event(&mut self, event: Event, client: &mut Client) -> Result<()> {
        match event {
            Event::Connected => {
                self.association.open_stream(STREAM, PayloadType::Binary)?;
                client.send_more(&mut self.association)?;
            }
            Event::Readable { stream } if !client.has_all() => self.look_at(stream, client)?,
            Event::ResetComplete { .. } => {
                self.association.shutdown()?;
                client.ends_until = Some(Instant::now() + END_WITHIN);
            }
            Event::ResetFailed { .. } => return Err(format!("no end came: {event:?}").into()),
            Event::Lost { .. } | Event::HandshakeFailed { .. } if client.ends_until.is_none() => {
                return Err(format!("the association ended: {event:?}").into());
            }
            _ => {}
        }
        Ok(())
    }

    /// Answers whether there was any.
    fn take_events(&mut self, client: &mut Option<Client>) -> Result<bool> {
        let mut any = false;
        while let Some(event) = self.association.poll_event()? {
            match client {
                Some(client) => self.on_client_event(event, client)?,
                None => self.on_server_event(event)?,
            }
            any = true;
        }
        Ok(any)
    }

    /// Does what is due at the association, until there is neither an event nor a datagram: each may bring the other.
    fn serve(&mut self, udp: &UdpSocket, client: &mut Option<Client>, buffer: &mut [u8]) -> Result<()> {
        self.take_events(client)?;
        self.send_all(udp, buffer)?;
        while self.take_events(client)? {
            self.send_all(udp, buffer)?;
        }
        Ok(())
    }
}

impl Echo {
    fn run(&mut self) -> Result<()> {
        self.serve_all()?;
        while self.goes_on()? {
            self.wait()?;
            self.meet_timers()?;
            self.serve_all()?;
        }
        Ok(())
    }

    /// A server goes on; a client does so until the association has ended, but not for ever.
    fn goes_on(&self) -> Result<bool> {
        let Some(client) = &self.client else { return Ok(true) };
        let is_over = self.ends.iter().all(|end| end.association.is_drained());
        if !is_over && client.ends_until.is_some_and(|until| until < Instant::now()) {
            return Err("the shutdown was not answered".into());
        }
        Ok(!is_over)
    }

    /// A server lets an association go that is over, or whose client began anew.
    fn serve_all(&mut self) -> Result<()> {
        for end in self.ends.iter_mut().chain(&mut self.besides) {
            end.serve(&self.udp, &mut self.client, &mut self.buffer)?;
        }
        if self.client.is_none() {
            let before = self.ends.len();
            let began_anew = |peer| self.besides.iter().any(|beside| beside.peer == peer && beside.is_up);
            self.ends.retain(|end| !end.association.is_drained() && !began_anew(end.peer));
            (self.ends.len()..before).for_each(|_| println!("an association ended"));
            self.move_up();
        }
        Ok(())
    }

    /// What is beside no other end any more takes the place of the old one.
    fn move_up(&mut self) {
        for beside in mem::take(&mut self.besides) {
            let is_beside = self.ends.iter().any(|end| end.peer == beside.peer);
            let ends = if is_beside { &mut self.besides } else { &mut self.ends };
            ends.push(beside);
        }
    }

    /// Until a datagram comes, which is handed in, or a timer expires.
    fn wait(&mut self) -> Result<()> {
        let ends = self.ends.iter().chain(&self.besides);
        let due = ends.filter_map(|end| end.association.poll_timeout()).min();
        let left = due.map(|due| due.saturating_duration_since(Instant::now()).max(Duration::from_millis(1)));
        self.udp.set_read_timeout(left)?;
        let mut buffer = mem::take(&mut self.buffer);
        let came = self.udp.recv_from(&mut buffer);
        let answer = match came {
            Ok((length, from)) => self.receive(&buffer[..length], from),
            Err(error) if is_no_fault(error.kind()) => Ok(()),
            Err(error) => Err(error.into()),
        };
        self.buffer = buffer;
        answer
    }

    fn meet_timers(&mut self) -> Result<()> {
        let now = Instant::now();
        for end in self.ends.iter_mut().chain(&mut self.besides) {
            if end.association.poll_timeout().is_some_and(|due| due <= now) {
                end.association.handle_timeout(now)?;
            }
        }
        Ok(())
    }

    /// A client that begins anew, as after a crash, is answered by an association beside its old one. That goes on
    /// being served, as an INIT can be forged, until the new handshake is done. An INIT that comes meanwhile goes to
    /// the one beside it, too: a copy is answered as the first one was, and a newer one takes its place.
    fn receive(&mut self, datagram: &[u8], from: SocketAddr) -> Result<()> {
        let mut fate = Fate::OtherInit;
        for ends in [&mut self.ends, &mut self.besides] {
            let Some(end) = ends.iter_mut().find(|end| end.peer == from) else { continue };
            fate = end.hand_in(datagram)?;
            if !matches!(fate, Fate::OtherInit | Fate::OtherTag) {
                return Ok(()); // it was for this association, or is for none
            }
        }
        match (fate, &self.client) {
            (Fate::OtherInit, None) => self.meet(datagram, from),
            _ => Ok(()), // what is not for it is left
        }
    }

    /// A stranger gets a place only by a packet that a server answers: an INIT, whole and with the right checksum. So
    /// it is handed to an association of its own first, and whoever is served goes on being served.
    fn meet(&mut self, datagram: &[u8], from: SocketAddr) -> Result<()> {
        if datagram.get(12) != Some(&1) {
            return Ok(()); // the type of the first chunk; 1 is INIT
        }
        let now = Instant::now();
        let mut stranger = End::new(from, Association::server(&Config::default(), &Identity::random()?, now)?);
        if stranger.association.handle_datagram(now, datagram)? != Fate::Taken {
            return Ok(());
        }
        let mut answer = [0; MAX_DATAGRAM];
        let Some(answer) = stranger.association.poll_transmit(now, &mut answer)? else { return Ok(()) };
        let is_beside = self.ends.iter().any(|end| end.peer == from);
        if !is_beside && !self.make_place() {
            return Ok(());
        }
        let _ = self.udp.send_to(answer, from);
        let ends = if is_beside { &mut self.besides } else { &mut self.ends };
        ends.push(stranger);
        Ok(())
    }

    /// If all places are taken, the client that was silent longest of those that may give way loses its own.
    fn make_place(&mut self) -> bool {
        if self.ends.len() < CLIENTS {
            return true;
        }
        let idle = self.ends.iter().enumerate().filter(|(_, end)| end.is_idle());
        let Some((index, _)) = idle.min_by_key(|(_, end)| end.heard) else { return false };
        let lost = self.ends.swap_remove(index);
        self.besides.retain(|beside| beside.peer != lost.peer);
        true
    }
}

/// Whether nothing came in time, or a signal did.
fn is_no_fault(kind: ErrorKind) -> bool {
    matches!(kind, ErrorKind::WouldBlock | ErrorKind::TimedOut | ErrorKind::Interrupted)
}

fn be_server(port: &str) -> Result<Echo> {
    let port: u16 = port.parse().map_err(|_| format!("{port} is no port: a number from 0 to 65535"))?;
    let udp = UdpSocket::bind(("0.0.0.0", port)).map_err(|error| format!("no UDP socket at port {port}: {error}"))?;
    println!("serving on port {}", udp.local_addr()?.port());
    Ok(Echo { udp, ends: Vec::new(), besides: Vec::new(), client: None, buffer: vec![0; MAX_DATAGRAM] })
}

/// An address to which something can be sent from the client's socket.
fn address_of(word: &str) -> Option<SocketAddr> {
    word.parse().ok().filter(|address: &SocketAddr| address.is_ipv4() && address.port() != 0)
}

fn be_client(peer: &str, count: &str) -> Result<Echo> {
    let peer =
        address_of(peer).ok_or_else(|| format!("{peer} is no IPv4 address with a port, as 127.0.0.1:9899 is"))?;
    let count = count.parse().ok().filter(|count| *count > 0);
    let count = count.ok_or("COUNT is how many messages go out: a number from 1 on")?;
    let association = Association::client(&Config::default(), &Identity::random()?, Instant::now())?;
    Ok(Echo {
        udp: UdpSocket::bind("0.0.0.0:0")?,
        ends: vec![End::new(peer, association)],
        besides: Vec::new(),
        client: Some(Client { count, sent: 0, echoed: 0, ends_until: None }),
        buffer: vec![0; MAX_DATAGRAM],
    })
}

fn run() -> Result<()> {
    let words: Vec<String> = std::env::args().skip(1).collect();
    let words: Vec<&str> = words.iter().map(String::as_str).collect();
    let mut echo = match words[..] {
        ["server", port] => be_server(port)?,
        ["client", peer, count] => be_client(peer, count)?,
        _ => return Err("usage: echo server PORT | echo client ADDRESS:PORT COUNT".into()),
    };
    echo.run()?;
    if let Some(client) = echo.client {
        println!("{} messages came back, the stream ended at both sides, and so did the association", client.echoed);
    }
    Ok(())
}

fn main() -> ExitCode {
    let Err(error) = run() else { return ExitCode::SUCCESS };
    eprintln!("echo: {error}");
    ExitCode::FAILURE
}
