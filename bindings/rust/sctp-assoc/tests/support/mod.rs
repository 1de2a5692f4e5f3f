//! Two ends in memory, and a clock of the test's own.
#![allow(dead_code)] // each test uses a part of it
use sctp_assoc::{Association, Config, Counters, Error, Event, Fate, Identity};
use std::time::{Duration, Instant};

/// Two associations, or two connections, which have channels besides.
pub struct Link<E = Association> {
    pub ends: [E; 2],
    pub now: Instant,
}

/// The calls of the loop, which both have under the same names.
pub trait End {
    type Error;
    fn handle_datagram(&mut self, now: Instant, datagram: &[u8]) -> Result<Fate, Self::Error>;
    fn poll_transmit<'b>(&mut self, now: Instant, buffer: &'b mut [u8]) -> Result<Option<&'b [u8]>, Self::Error>;
    fn poll_timeout(&self) -> Option<Instant>;
    fn handle_timeout(&mut self, now: Instant) -> Result<(), Self::Error>;
}

macro_rules! end {
    ($type:ty, $error:ty) => {
        impl End for $type {
            type Error = $error;
            fn handle_datagram(&mut self, now: Instant, datagram: &[u8]) -> Result<Fate, $error> {
                <$type>::handle_datagram(self, now, datagram)
            }
            fn poll_transmit<'b>(&mut self, now: Instant, buffer: &'b mut [u8]) -> Result<Option<&'b [u8]>, $error> {
                <$type>::poll_transmit(self, now, buffer)
            }
            fn poll_timeout(&self) -> Option<Instant> {
                <$type>::poll_timeout(self)
            }
            fn handle_timeout(&mut self, now: Instant) -> Result<(), $error> {
                <$type>::handle_timeout(self, now)
            }
        }
    };
}

end!(Association, Error);
#[cfg(feature = "channels")]
end!(sctp_assoc::channels::Connection, sctp_assoc::channels::Error);

pub fn identity(number: u8) -> Identity {
    Identity { tag: number.into(), initial_tsn: 100 * u32::from(number), cookie: [number; 32] }
}

/// The counters of a stream by its messages and their bytes, those sent and those received.
pub fn counters(sent: (u64, u64), received: (u64, u64)) -> Counters {
    let mut counters = Counters::default();
    (counters.messages_sent, counters.bytes_sent) = sent;
    (counters.messages_received, counters.bytes_received) = received;
    counters
}

/// Hands over all that is due at `from`. Answers whether there was any.
pub fn pass_on<E: End>(from: &mut E, to: &mut E, now: Instant) -> Result<bool, E::Error> {
    let mut buffer = [0; 1500];
    let mut any = false;
    while let Some(datagram) = from.poll_transmit(now, &mut buffer)? {
        to.handle_datagram(now, datagram)?;
        any = true;
    }
    Ok(any)
}

impl Link {
    /// A client and a server before their first packet.
    pub fn new(config: &Config) -> Result<Link, Error> {
        let now = Instant::now();
        let client = Association::client(config, &identity(1), now)?;
        let server = Association::server(config, &identity(2), now)?;
        Ok(Link { ends: [client, server], now })
    }

    /// A client and a server after their handshake, with no event left.
    pub fn established(config: &Config) -> Result<Link, Error> {
        let mut link = Link::new(config)?;
        link.settle()?;
        for end in &mut link.ends {
            assert_eq!(end.poll_event()?, Some(Event::Connected));
            assert_eq!(end.poll_event()?, None);
            assert!(end.is_established() && !end.is_closed() && !end.is_failed());
        }
        Ok(link)
    }
}

impl<E: End> Link<E> {
    /// Hands over what is due, and lets timers expire that do so within a second.
    pub fn settle(&mut self) -> Result<(), E::Error> {
        for _ in 0..100 {
            let [client, server] = &mut self.ends;
            while pass_on(client, server, self.now)? | pass_on(server, client, self.now)? {}
            let due = self.ends.iter().filter_map(E::poll_timeout).min();
            match due {
                Some(due) if due <= self.now + Duration::from_secs(1) => self.now = self.now.max(due),
                _ => return Ok(()),
            }
            for end in &mut self.ends {
                end.handle_timeout(self.now)?;
            }
        }
        panic!("no end is in sight");
    }
}
