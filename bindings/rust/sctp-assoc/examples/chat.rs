//! A chat by a data channel (RFC 8831, RFC 8832) between two UDP sockets of this machine (RFC 6951): each line of the
//! standard input goes as a text, and each text that comes is printed. One side waits, the other connects and opens the
//! channel. The end of either side's input ends the chat at both, once all that was said was sent and acknowledged.
//!
//!     cargo run --features channels --example chat -- serve             takes a free port, and prints which
//!     cargo run --features channels --example chat -- connect 9899
use sctp_assoc::channels::{Connection, Event, Kind, Role};
use sctp_assoc::{Association, Config, End, Fate, Identity, MAX_DATAGRAM};
use std::error::Error;
use std::io::{stdin, stdout, BufRead, Write};
use std::net::{Ipv4Addr, SocketAddr, UdpSocket};
use std::process::ExitCode;
use std::sync::mpsc::{channel, sync_channel, Receiver, RecvTimeoutError, Sender, SyncSender};
use std::thread;
use std::time::{Duration, Instant};

/// Bytes that may wait to be acknowledged before more input is read.
const MAX_BUFFERED: usize = 100_000;
/// So long a shutdown may take. A peer that is gone never answers it.
const END_WITHIN: Duration = Duration::from_secs(20);

type Result<T> = std::result::Result<T, Box<dyn Error>>;

/// What the loop waits for.
enum Input {
    Datagram(Vec<u8>, SocketAddr),
    /// A line without its end; None at the end of the input.
    Line(Option<String>),
}

/// One side of the chat.
struct Chat {
    is_client: bool,
    udp: UdpSocket,
    /// Of a server, once a client came.
    peer: Option<SocketAddr>,
    is_up: bool,
    connection: Connection,
    /// Where it is open.
    channel: Option<u16>,
    ends_until: Option<Instant>,
    inputs: Receiver<Input>,
    /// Has the next line read.
    lines: Sender<()>,
    /// A line was asked for that did not come yet.
    awaits_line: bool,
    buffer: Vec<u8>,
}

/// Hands on each datagram that comes.
fn hand_on_datagrams(udp: &UdpSocket, inputs: &SyncSender<Input>) {
    let mut buffer = vec![0; MAX_DATAGRAM];
    loop {
        let Ok((length, from)) = udp.recv_from(&mut buffer) else { continue };
        if inputs.send(Input::Datagram(buffer[..length].to_vec(), from)).is_err() {
            return;
        }
    }
}

/// Hands on a line each time that one is asked for, and then the end of the input.
fn hand_on_lines(asked: &Receiver<()>, inputs: &SyncSender<Input>) {
    while asked.recv().is_ok() {
        let mut line = Vec::new();
        let has_more = stdin().lock().read_until(b'\n', &mut line).is_ok_and(|length| length > 0);
        if line.last() == Some(&b'\n') {
            line.pop();
        }
        let line = has_more.then(|| String::from_utf8_lossy(&line).into_owned());
        if inputs.send(Input::Line(line)).is_err() {
            return;
        }
    }
}

impl Chat {
    /// A client if there is a peer, whose channel is opened once the handshake is done; else a server.
    fn new(peer: Option<SocketAddr>) -> Result<Chat> {
        let udp = UdpSocket::bind((Ipv4Addr::LOCALHOST, 0))?; // what goes over it is not encrypted
        let (make, role): (fn(&Config, &Identity, Instant) -> _, _) = match peer {
            Some(_) => (Association::client, Role::Client),
            None => (Association::server, Role::Server),
        };
        let association = make(&Config::default(), &Identity::random()?, Instant::now())?;
        let mut connection = Connection::new(association, role)?;
        if peer.is_some() {
            connection.open("chat", "", &Kind::default())?;
        }
        let (datagrams, inputs) = sync_channel(100);
        let (lines, asked) = channel();
        let (socket, texts) = (udp.try_clone()?, datagrams.clone());
        thread::spawn(move || hand_on_datagrams(&socket, &datagrams));
        thread::spawn(move || hand_on_lines(&asked, &texts));
        Ok(Chat {
            is_client: peer.is_some(),
            udp,
            peer,
            is_up: false,
            connection,
            channel: None,
            ends_until: None,
            inputs,
            lines,
            awaits_line: false,
            buffer: vec![0; MAX_DATAGRAM],
        })
    }

    fn print_all(&mut self, id: u16) -> Result<()> {
        let mut output = stdout().lock();
        while let Some(message) = self.connection.channel(id).receive_vec()? {
            output.write_all(&message.into_bytes())?;
            output.write_all(b"\n")?;
        }
        Ok(output.flush()?)
    }

    /// Ends the association, once all that either side accepted is acknowledged. If the peer has begun to, that goes
    /// on.
    fn end(&mut self) {
        if self.connection.shutdown().is_ok() {
            self.ends_until = Some(Instant::now() + END_WITHIN);
        }
    }

    fn on_event(&mut self, event: Event) -> Result<()> {
        match event {
            Event::Connected => self.is_up = true,
            Event::HandshakeFailed { .. } => return Err(format!("nobody answered: {event:?}").into()),
            Event::Failed { .. } if self.is_client => return Err(format!("no channel was begun: {event:?}").into()),
            // The first channel that opens is that of the chat.
            Event::Opened { id } | Event::Announced { id } => self.channel = self.channel.or(Some(id)),
            Event::Message { id } => self.print_all(id)?,
            Event::Closed { id } if self.channel == Some(id) => self.end(),
            _ => {}
        }
        Ok(())
    }

    /// Answers whether there was any.
    fn take_events(&mut self) -> Result<bool> {
        let mut any = false;
        while let Some(event) = self.connection.poll_event()? {
            self.on_event(event)?;
            any = true;
        }
        Ok(any)
    }

    /// Sends what is due.
    fn send_all(&mut self) -> Result<()> {
        while let Some(datagram) = self.connection.poll_transmit(Instant::now(), &mut self.buffer)? {
            if let Some(peer) = self.peer {
                let _ = self.udp.send_to(datagram, peer); // what the socket does not take is lost, as on the way
            }
        }
        Ok(())
    }

    /// Until there is neither an event nor a datagram: each may bring the other.
    fn serve(&mut self) -> Result<()> {
        self.take_events()?;
        self.send_all()?;
        while self.take_events()? {
            self.send_all()?;
        }
        Ok(())
    }

    /// A server's peer is whoever comes, until a handshake is done.
    fn receive(&mut self, datagram: &[u8], from: SocketAddr) -> Result<()> {
        if self.peer != Some(from) && (self.is_client || self.is_up) {
            return Ok(());
        }
        if self.connection.handle_datagram(Instant::now(), datagram)? == Fate::Taken {
            self.peer = Some(from);
        }
        Ok(())
    }

    /// The channel, while messages can be sent: neither side has begun to end.
    fn open_channel(&self) -> Option<u16> {
        self.channel.filter(|_| self.connection.is_established())
    }

    /// Says a line; at the end of the input the chat ends. What is read once the peer ended is not said.
    fn take_line(&mut self, line: Option<&str>) -> Result<()> {
        self.awaits_line = false;
        let Some(id) = self.open_channel() else { return Ok(()) };
        match line {
            Some(text) => self.connection.channel(id).send_text(text)?,
            None => self.end(),
        }
        Ok(())
    }

    /// Has a line read if one can be said: not before the channel is open, nor while much waits to be acknowledged.
    fn ask_for_line(&mut self) -> Result<()> {
        let Some(id) = self.open_channel() else { return Ok(()) };
        if !self.awaits_line && self.connection.channel(id).buffered_amount()? < MAX_BUFFERED {
            self.awaits_line = true;
            self.lines.send(())?;
        }
        Ok(())
    }

    /// Until a datagram or a line comes, which is taken, or a timer expires.
    fn wait(&mut self) -> Result<()> {
        let input = match self.connection.poll_timeout() {
            Some(due) => self.inputs.recv_timeout(due.saturating_duration_since(Instant::now())),
            None => self.inputs.recv().map_err(RecvTimeoutError::from),
        };
        match input {
            Ok(Input::Datagram(datagram, from)) => self.receive(&datagram, from),
            Ok(Input::Line(line)) => self.take_line(line.as_deref()),
            Err(RecvTimeoutError::Timeout) => Ok(()),
            Err(gone) => Err(gone.into()),
        }
    }

    fn meet_timer(&mut self) -> Result<()> {
        let now = Instant::now();
        if self.connection.poll_timeout().is_some_and(|due| due <= now) {
            self.connection.handle_timeout(now)?;
        }
        Ok(())
    }

    /// Until the association has ended, but not for ever.
    fn run(&mut self) -> Result<()> {
        self.serve()?;
        while !self.connection.is_drained() {
            if self.ends_until.is_some_and(|until| until < Instant::now()) {
                return Err("the end was not answered".into());
            }
            self.ask_for_line()?;
            self.wait()?;
            self.meet_timer()?;
            self.serve()?;
        }
        match self.connection.end() {
            Some(End::ShutDown) => Ok(()),
            end => Err(format!("the association ended: {end:?}").into()),
        }
    }
}

/// The address of the server on this machine at the port that it prints.
fn server_at(port: &str) -> Result<SocketAddr> {
    let number = port.parse().ok().filter(|number| *number > 0);
    let number = number.ok_or_else(|| format!("{port} is no port: a number from 1 to 65535"))?;
    Ok((Ipv4Addr::LOCALHOST, number).into())
}

fn run() -> Result<()> {
    let words: Vec<String> = std::env::args().skip(1).collect();
    let words: Vec<&str> = words.iter().map(String::as_str).collect();
    let peer = match words[..] {
        ["serve"] => None,
        ["connect", port] => Some(server_at(port)?),
        _ => return Err("usage: chat serve | chat connect PORT".into()),
    };
    let mut chat = Chat::new(peer)?;
    if peer.is_none() {
        println!("serving on port {}", chat.udp.local_addr()?.port());
    }
    chat.run()
}

fn main() -> ExitCode {
    let Err(error) = run() else { return ExitCode::SUCCESS };
    eprintln!("chat: {error}");
    ExitCode::FAILURE
}
