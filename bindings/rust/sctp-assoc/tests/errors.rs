//! Every error and fate, each at least once, with a heap that can refuse. Only `NoStreamLeft` is not, which takes 2^64
//! streams, `NoRandom`, which `host/identities.c` has, and `Unknown`, which no library of this version answers. One
//! test, as the heap is the process's.
mod support;

use sctp_assoc::{Association, Config, Error, Event, Fate, PayloadType, Reason, Reliability, Token};
use std::alloc::{alloc, dealloc, realloc, Layout};
use std::sync::atomic::{AtomicBool, AtomicUsize, Ordering::SeqCst};
use std::time::{Duration, Instant};
use support::{identity, pass_on, Link};

static REFUSES: AtomicBool = AtomicBool::new(false);
static BLOCKS: AtomicUsize = AtomicUsize::new(0);

/// What the library's calls for memory answer.
#[repr(C)]
pub struct Block {
    ok: bool,
    at: *mut u8,
}

// A block has its size in the 16 bytes in front of it.
const HEAD: usize = 16;

fn layout(size: usize) -> Layout {
    Layout::from_size_align(size + HEAD, HEAD).expect("a size that the library asks for")
}

fn answer(whole: *mut u8, size: usize) -> Block {
    if whole.is_null() {
        return Block { ok: false, at: HEAD as *mut u8 };
    }
    // SAFETY: the block has HEAD bytes more than the library asked for.
    unsafe {
        whole.cast::<usize>().write(size);
        Block { ok: true, at: whole.add(HEAD) }
    }
}

#[no_mangle]
extern "C" fn rattle_alloc(size: usize, _align: usize) -> Block {
    if REFUSES.load(SeqCst) {
        return answer(std::ptr::null_mut(), 0);
    }
    BLOCKS.fetch_add(1, SeqCst);
    // SAFETY: the layout's size is not 0.
    answer(unsafe { alloc(layout(size)) }, size)
}

#[no_mangle]
unsafe extern "C" fn rattle_realloc(at: *mut u8, _kept: usize, size: usize, _align: usize) -> Block {
    if REFUSES.load(SeqCst) {
        return answer(std::ptr::null_mut(), 0);
    }
    // SAFETY: the library hands in a block that it got here.
    unsafe {
        let whole = at.sub(HEAD);
        answer(realloc(whole, layout(whole.cast::<usize>().read()), size + HEAD), size)
    }
}

#[no_mangle]
unsafe extern "C" fn rattle_dealloc(at: *mut u8) {
    BLOCKS.fetch_sub(1, SeqCst);
    // SAFETY: the library hands in a block that it got here.
    unsafe {
        let whole = at.sub(HEAD);
        dealloc(whole, layout(whole.cast::<usize>().read()));
    }
}

fn refusing<T>(call: impl FnOnce() -> T) -> T {
    REFUSES.store(true, SeqCst);
    let answer = call();
    REFUSES.store(false, SeqCst);
    answer
}

/// Configurations of which one timeout has no whole millisecond.
fn without_a_timeout() -> [Config; 3] {
    let mut configs = [Config::default(), Config::default(), Config::default()];
    configs[0].rto_initial = Duration::ZERO;
    configs[1].rto_min = Duration::from_micros(999);
    configs[2].rto_max = Duration::ZERO;
    configs
}

/// Configurations with one fault each.
fn unusable() -> [(Config, Error); 4] {
    let with = |spoil: fn(&mut Config)| {
        let mut config = Config::default();
        spoil(&mut config);
        config
    };
    [
        (with(|config| config.local_port = 0), Error::BadPort),
        (with(|config| config.remote_port = 0), Error::BadPort),
        (with(|config| config.max_num_inbound_streams = 0), Error::BadStreams),
        (with(|config| config.max_receive_buffer_size = 1499), Error::BadWindow),
    ]
}

fn refused_begin() {
    let now = Instant::now();
    let config = Config::default();
    let mut too_small = Config::default();
    too_small.max_payload_size = 0;
    let without_tsn = sctp_assoc::Identity { initial_tsn: 0, ..identity(1) };
    let token = Token::new(&config, 1, 10);
    let narrow = Token { window: 1499, ..token };
    let error = |made: Result<Association, Error>| made.expect_err("it is refused");
    for config in without_a_timeout() {
        assert_eq!(error(Association::client(&config, &identity(1), now)), Error::BadTimeout);
        assert_eq!(error(Association::server(&config, &identity(1), now)), Error::BadTimeout);
        assert_eq!(error(Association::joined(&config, &token, &token, now)), Error::BadTimeout);
    }
    for (config, wanted) in unusable() {
        assert_eq!(error(Association::client(&config, &identity(1), now)), wanted);
        assert_eq!(error(Association::server(&config, &identity(1), now)), wanted);
        assert_eq!(error(Association::joined(&config, &token, &token, now)), wanted);
    }
    let without_tag = sctp_assoc::Identity { tag: 0, ..identity(1) };
    assert_eq!(error(Association::client(&config, &without_tag, now)), Error::BadTag);
    assert_eq!(error(Association::client(&too_small, &identity(1), now)), Error::BadPayloadSize);
    assert_eq!(error(Association::server(&config, &without_tsn, now)), Error::BadInitialTsn);
    assert_eq!(error(Association::joined(&config, &token, &narrow, now)), Error::BadToken);
    assert_eq!(narrow.to_init(), Err(Error::BadToken));
    assert_eq!(Token::from_init(&[1, 0, 0, 20]), Err(Error::BadInit));
    assert_eq!(error(refusing(|| Association::joined(&config, &token, &token, now))), Error::NoMemory);
}

fn refused_streams(link: &mut Link) -> Result<(), Error> {
    let end = &mut link.ends[0];
    assert_eq!(end.stream(1).write(b"x"), Err(Error::NoStream));
    assert_eq!(end.stream(1).read(&mut []), Err(Error::NoStream));
    let mut stream = end.open_stream(1, PayloadType::Binary)?;
    assert_eq!(stream.write(b""), Err(Error::EmptyMessage));
    assert_eq!(stream.write(&[0; 65537]), Err(Error::MessageTooLong));
    assert_eq!(stream.read_vec(), Ok(None));
    stream.set_reliability(false, Reliability::Lifetime(Duration::from_secs(1)))?;
    stream.set_reliability(false, Reliability::Retransmissions(3))?;
    stream.finish()?;
    assert_eq!(stream.write(b"x"), Err(Error::StreamClosed));
    assert_eq!(end.open_stream(1, PayloadType::Binary).map(|_| ()), Err(Error::StreamExists));
    Ok(())
}

fn no_room(link: &mut Link) -> Result<(), Error> {
    let now = link.now;
    let [client, server] = &mut link.ends;
    client.open_stream(2, PayloadType::Binary)?.write(&[7; 100])?;
    let mut buffer = [0; 200];
    assert_eq!(client.poll_transmit(now, &mut buffer[..127]), Err(Error::NoRoom { needed: 128 }));
    let datagram = client.poll_transmit(now, &mut buffer)?.expect("it stayed").to_vec();
    assert_eq!(server.handle_datagram(now, &datagram)?, Fate::Taken);
    assert_eq!(server.handle_datagram(now, &datagram[..127])?, Fate::NoPacket);
    assert_eq!(client.handle_datagram(now, &datagram)?, Fate::OtherTag);
    assert_eq!(server.stream(2).read(&mut buffer[..99]), Err(Error::NoRoom { needed: 100 }));
    assert_eq!(server.stream(2).read(&mut buffer)?.map(|message| message.bytes), Some(&[7; 100][..]));
    Ok(())
}

fn handshakes() -> Result<(), Error> {
    let mut link = Link::new(&Config::default())?;
    let now = link.now;
    let [client, server] = &mut link.ends;
    assert_eq!(client.open_stream(1, PayloadType::Binary)?.write(b"x"), Err(Error::NotEstablished));
    assert_eq!(client.stream(1).stop(), Err(Error::CannotReset));
    assert_eq!(client.shutdown(), Err(Error::ShutdownNotEstablished));
    assert!(!client.is_closed() && server.is_closed());
    let mut buffer = [0; 1500];
    let init = client.poll_transmit(now, &mut buffer)?.expect("an INIT is due").to_vec();
    assert_eq!(server.handle_datagram(now, &init)?, Fate::Taken);
    pass_on(server, client, now)?;
    pass_on(client, server, now)?;
    assert_eq!(server.handle_datagram(now, &init)?, Fate::RepeatedInit);

    let mut once = Config::default();
    once.max_init_retransmits = Some(1);
    let mut client = Association::client(&once, &identity(3), now)?;
    while let Some(due) = client.poll_timeout() {
        client.handle_timeout(due)?;
    }
    assert_eq!(client.poll_event()?, Some(Event::HandshakeFailed { reason: Reason::NoInitAck }));
    Ok(())
}

/// The client was started anew. Its INIT leaves the server as it was, and a server beside that one answers it.
fn begins_anew() -> Result<(), Error> {
    let config = Config::default();
    let Link { ends: [_, mut old], now } = Link::established(&config)?;
    let mut client = Association::client(&config, &identity(3), now)?;
    let mut beside = Association::server(&config, &identity(4), now)?;
    let mut buffer = [0; 1500];
    let init = client.poll_transmit(now, &mut buffer)?.expect("an INIT is due").to_vec();
    assert_eq!(old.handle_datagram(now, &init)?, Fate::OtherInit);
    assert!(old.is_established() && old.poll_timeout().is_none());
    assert_eq!((old.poll_event()?, old.poll_transmit(now, &mut buffer)?), (None, None));

    assert_eq!(beside.handle_datagram(now, &init)?, Fate::Taken);
    pass_on(&mut beside, &mut client, now)?;
    let echo = client.poll_transmit(now, &mut buffer)?.expect("a COOKIE ECHO is due").to_vec();
    assert_eq!(old.handle_datagram(now, &echo)?, Fate::OtherTag);
    assert_eq!(beside.handle_datagram(now, &echo)?, Fate::Taken);
    assert_eq!(beside.poll_event()?, Some(Event::Connected));
    assert_eq!(beside.handle_datagram(now, &init)?, Fate::RepeatedInit);
    old.close()?;
    assert_eq!(old.handle_datagram(now, &init)?, Fate::OtherInit);
    Ok(())
}

/// Memory is refused to channels. Each call can be made again, and the association goes on.
#[cfg(feature = "channels")]
fn refused_channels() -> Result<(), sctp_assoc::channels::Error> {
    use sctp_assoc::channels::{Connection, Error, Kind, Role};
    let [client, server] = Link::established(&Config::default())?.ends;
    assert_eq!(refusing(|| Connection::new(server, Role::Server)).expect_err("it is refused"), Error::NoMemory);
    let mut connection = Connection::new(client, Role::Client)?;
    assert_eq!(refusing(|| connection.open("chat", "", &Kind::default())), Err(Error::NoMemory));
    let id = connection.open("chat", "", &Kind::default())?;
    assert_eq!(refusing(|| connection.poll_event()), Err(Error::NoMemory));
    assert_eq!(connection.poll_event()?, None);
    assert_eq!(refusing(|| connection.channel(id).send_text("hello")), Err(Error::NoMemory));
    connection.channel(id).send_text("hello")?;
    assert!(connection.is_established() && !connection.association().is_failed());
    let stream = connection.association_mut().stream(id);
    assert_eq!(stream.buffered_amount()?, 12 + "chat".len() + "hello".len());
    Ok(())
}

fn ends(link: &mut Link) -> Result<(), Error> {
    let now = link.now;
    let [client, server] = &mut link.ends;
    server.close()?;
    let mut last = None;
    while let Some(event) = server.poll_event()? {
        last = Some(event);
    }
    assert_eq!(last, Some(Event::Lost { reason: Reason::Closed }));
    assert!(server.is_closed());

    client.stream(2).write(b"x")?;
    let mut buffer = [0; 200];
    assert_eq!(refusing(|| client.poll_transmit(now, &mut buffer).map(|_| ())), Err(Error::NoMemory));
    assert!(client.is_failed());
    let metrics = client.metrics();
    assert!(metrics.failed && metrics.established && metrics.next_timeout.is_none());
    assert_eq!(client.poll_event(), Err(Error::Failed));
    assert_eq!(client.handle_timeout(now), Err(Error::Failed));
    assert_eq!(client.shutdown(), Err(Error::Failed));
    assert_eq!(client.poll_timeout(), None);
    Ok(())
}

#[test]
fn each_error_once() -> Result<(), Error> {
    refused_begin();
    handshakes()?;
    begins_anew()?;
    let mut link = Link::established(&Config::default())?;
    refused_streams(&mut link)?;
    no_room(&mut link)?;
    ends(&mut link)?;
    drop(link);
    #[cfg(feature = "channels")]
    refused_channels().expect("memory is there again");
    assert_eq!(BLOCKS.load(SeqCst), 0, "blocks that were not given back");
    Ok(())
}

#[test]
fn errors_say_what_is_wrong() {
    let error: Box<dyn std::error::Error> = Error::NoRoom { needed: 12 }.into();
    assert_eq!(error.to_string(), "the buffer is too short: 12 bytes are needed");
    assert_eq!(Error::NoMemory.to_string(), "memory was refused");
}
