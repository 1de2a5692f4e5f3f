//! Carries out a session by the library, as the program `assoc_lab` does.
use crate::reply;
use crate::session::{Beginning, Side, Step};
use crate::story::{bytes_in_words, Happening};
use sctp_assoc::{Association, Config, Error, Event, Fate, Identity, Reliability, Token, MAX_DATAGRAM};
use std::time::{Duration, Instant};

/// The State Cookie of either side.
const COOKIE: [u8; 32] = [67; 32];

/// Two associations, what each sent, and what happened.
pub struct Replay {
    ends: [Association; 2],
    sent: [Vec<Vec<u8>>; 2],
    began: Instant,
    moment: Option<u64>,
    pub story: Vec<Happening>,
}

impl Replay {
    pub fn new(beginning: Beginning) -> Result<Replay, Error> {
        let began = Instant::now();
        let mut config = Config::default();
        (config.rto_initial, config.rto_min) = (Duration::from_secs(3), Duration::from_secs(1)); // those of ./lab
        config.max_data_retransmits = None;
        config.max_payload_size = beginning.max_payload_size;
        config.profile = beginning.profile;
        let [a, b] = beginning.first_tsns;
        let ends = if beginning.is_joined {
            let (a, b) = (Token::new(&config, 1, a), Token::new(&config, 2, b));
            [Association::joined(&config, &a, &b, began)?, Association::joined(&config, &b, &a, began)?]
        } else {
            let [a, b] = [(1, a), (2, b)].map(|(tag, initial_tsn)| Identity { tag, initial_tsn, cookie: COOKIE });
            [Association::client(&config, &a, began)?, Association::server(&config, &b, began)?]
        };
        Ok(Replay { ends, sent: [Vec::new(), Vec::new()], began, moment: None, story: Vec::new() })
    }

    fn end(&mut self, side: Side) -> &mut Association {
        &mut self.ends[side as usize]
    }

    /// The moment of so many ms, from which on the story goes on. A clock ends before the last of them.
    fn at(&mut self, millis: u64) -> Instant {
        if self.moment != Some(millis) {
            self.moment = Some(millis);
            self.story.push(Happening::Moment(millis));
        }
        self.began.checked_add(Duration::from_millis(millis)).unwrap_or(self.began)
    }

    /// Carries out a step, and answers the reply. `expected` is that of the program, if it is known.
    ///
    /// A `send` of the program takes what one poll gives, and a call of the library one datagram, so that nothing here
    /// tells where a poll ends. So as many datagrams are taken as are expected; if that is not known, all that are due.
    pub fn carry_out(&mut self, side: Side, step: &Step, expected: Option<&str>) -> String {
        match step {
            Step::Send { now } => self.send(side, *now, expected.map_or(usize::MAX, reply::count_of_packets)),
            Step::Deliver { number, now } => self.deliver(side, *number, *now),
            Step::Time { now } => self.meet_timers(side, *now),
            Step::Read { id } => self.read(side, *id),
            Step::Event => self.event(side),
            Step::Drained => self.drained(side),
            Step::Accept | Step::Ids | Step::Buffered { .. } | Step::Deadline | Step::Rtt | Step::State => {
                self.question(side, step)
            }
            call => self.call(side, call),
        }
    }

    /// Takes up to so many datagrams, and asks for one at least.
    fn send(&mut self, side: Side, now: u64, most: usize) -> String {
        let moment = self.at(now);
        let first = self.sent[side as usize].len();
        let mut buffer = vec![0; MAX_DATAGRAM];
        for _ in 0..most.max(1) {
            let datagram = match self.end(side).poll_transmit(moment, &mut buffer) {
                Ok(Some(datagram)) => datagram.to_vec(),
                Ok(None) => break,
                Err(error) => return reply::refusal(error),
            };
            let number = self.sent[side as usize].len();
            self.sent[side as usize].push(datagram.clone());
            self.story.push(Happening::Sent { side, number, datagram });
        }
        match self.sent[side as usize].len() - first {
            0 => "none".to_string(),
            count => format!("packets {first} {count}"),
        }
    }

    fn deliver(&mut self, side: Side, number: usize, now: u64) -> String {
        let moment = self.at(now);
        let Some(datagram) = self.sent[side.other() as usize].get(number).cloned() else {
            self.story.push(Happening::Missing { side, number });
            return reply::NO_PACKET.to_string();
        };
        let answer = self.end(side).handle_datagram(moment, &datagram);
        let dropped = match answer {
            Ok(Fate::NoPacket) => Some("no packet"),
            Ok(Fate::OtherTag) => Some("other tag"),
            Ok(Fate::RepeatedInit) => Some("repeated INIT"),
            Ok(Fate::OtherInit) => Some("other INIT"),
            _ => None,
        };
        self.story.push(Happening::Came { side, number, dropped });
        reply::done(answer.map(|_fate| ()))
    }

    fn meet_timers(&mut self, side: Side, now: u64) -> String {
        let moment = self.at(now);
        let is_due = self.end(side).poll_timeout().is_some_and(|due| due <= moment);
        let before = self.end(side).stats();
        let answer = self.end(side).handle_timeout(moment);
        let after = self.end(side).stats();
        let mut timers = Vec::new();
        if after.retransmission_timeouts > before.retransmission_timeouts {
            timers.push("T3-rtx expires");
        }
        if after.ack_timeouts > before.ack_timeouts {
            timers.push("delayed SACK is due");
        }
        if timers.is_empty() && is_due {
            timers.push("a timer expires");
        }
        self.story.extend(timers.into_iter().map(|timer| Happening::Expired { side, timer }));
        reply::done(answer)
    }

    fn told(&mut self, side: Side, words: String) {
        self.story.push(Happening::Told { side, words });
    }

    fn read(&mut self, side: Side, id: u16) -> String {
        let answer = self.end(side).stream(id).read_vec();
        if let Ok(Some((_, bytes))) = &answer {
            self.told(side, format!("reads {id}: {}", bytes_in_words(bytes)));
        }
        reply::optional(answer.map(|read| read.map(|(payload_type, bytes)| reply::message(payload_type, &bytes))))
    }

    fn event(&mut self, side: Side) -> String {
        let answer = self.end(side).poll_event();
        match answer {
            Ok(Some(Event::StreamEnded { stream, .. })) => self.told(side, format!("ended {stream}")),
            Ok(Some(event)) => self.told(side, reply::event(event)),
            _ => {}
        }
        reply::optional(answer.map(|event| event.map(reply::event)))
    }

    fn drained(&mut self, side: Side) -> String {
        let answer = self.end(side).poll_endpoint_event();
        let words = answer.map(|_begun| "drained".to_string());
        if let Some(words) = &words {
            self.told(side, words.clone());
        }
        reply::optional(Ok(words))
    }

    /// What changes nothing, or nothing that a picture shows.
    fn question(&mut self, side: Side, step: &Step) -> String {
        let began = self.began;
        let end = self.end(side);
        match step {
            Step::Accept => reply::optional(Ok(end.accept_stream().map(|stream| format!("stream {}", stream.id())))),
            Step::Ids => reply::value(
                end.stream_ids().map(|ids| ids.iter().fold("ids".to_string(), |words, id| format!("{words} {id}"))),
            ),
            Step::Buffered { id } => reply::value(end.stream(*id).buffered_amount().map(|bytes| bytes.to_string())),
            Step::Deadline => {
                let due = end.poll_timeout().map(|due| format!("at {}", (due - began).as_millis()));
                reply::optional(Ok(due))
            }
            Step::Rtt => end.rto().as_millis().to_string(),
            _ => {
                let answers = [false, end.is_closed(), end.is_closing(), end.is_drained(), end.is_failed()];
                answers.map(|answer| if answer { "1" } else { "0" }).join(" ")
            }
        }
    }

    /// What the application asks for.
    fn call(&mut self, side: Side, step: &Step) -> String {
        let end = self.end(side);
        let (words, reply) = match step {
            Step::Open { id, payload_type } => {
                (format!("opens {id}"), reply::done(end.open_stream(*id, *payload_type).map(|_stream| ())))
            }
            Step::Write { id, payload_type, bytes } => {
                let answer = match payload_type {
                    Some(payload_type) => end.stream(*id).write_as(*payload_type, bytes),
                    None => end.stream(*id).write(bytes),
                };
                let reply = reply::value(answer.map(|()| format!("wrote {}", bytes.len())));
                (format!("writes {id}: {}", bytes_in_words(bytes)), reply)
            }
            Step::Policy { id, unordered, reliability } => {
                let order = if *unordered { "unordered" } else { "ordered" };
                let reply = reply::done(end.stream(*id).set_reliability(*unordered, *reliability));
                (format!("policy {id}: {order}, {}", reliability_in_words(*reliability)), reply)
            }
            Step::Finish { id } => (format!("finishes {id}"), reply::done(end.stream(*id).finish())),
            Step::Stop { id } => (format!("stops {id}"), reply::done(end.stream(*id).stop())),
            Step::Shutdown => ("shuts down".to_string(), reply::done(end.shutdown())),
            _ => ("closes".to_string(), reply::done(end.close())),
        };
        let words = if reply.starts_with("refused") { format!("{words}, {reply}") } else { words };
        self.story.push(Happening::Asked { side, words });
        reply
    }
}

fn reliability_in_words(reliability: Reliability) -> String {
    match reliability {
        Reliability::Retransmissions(times) => format!("rexmit {times}"),
        Reliability::Lifetime(time) => format!("timed {}", time.as_millis()),
        _ => "reliable".to_string(),
    }
}
