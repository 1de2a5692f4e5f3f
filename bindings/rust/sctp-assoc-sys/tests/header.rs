//! What is declared here is what the headers of the checkout say. The archive is of the same release.
#![allow(non_camel_case_types)]
use sctp_assoc_sys::*;
use std::mem::{size_of, size_of_val, MaybeUninit};
use std::ptr::addr_of;

/// A header, and what stands for it here.
struct Declared {
    header: &'static str,
    /// The first letters of its names of numbers.
    prefix: &'static str,
    numbers: &'static str,
    calls: &'static str,
}

const ASSOCIATION: Declared = Declared {
    header: include_str!("../../../../include/sctp_assoc.h"),
    prefix: "SCTP_ASSOC_",
    numbers: include_str!("../src/codes.rs"),
    calls: include_str!("../src/calls.rs"),
};

#[cfg(feature = "channels")]
const CHANNELS: Declared = Declared {
    header: include_str!("../../../../include/sctp_channels.h"),
    prefix: "SCTP_CHANNELS_",
    numbers: include_str!("../src/channels.rs"),
    calls: include_str!("../src/channels.rs"),
};

/// The archive is of the release that this crate's manifest says.
#[test]
fn the_archive_is_of_this_release() {
    let mut numbers = env!("CARGO_PKG_VERSION").split('.').map(|number| number.parse::<u32>().unwrap());
    let mut next = || numbers.next().unwrap();
    // SAFETY: it takes nothing and answers a constant.
    assert_eq!(10_000 * next() + 100 * next() + next(), unsafe { sctp_assoc_version() });
}

impl Declared {
    /// The words of the header's lines that define a name of this crate as a number: the name and the number.
    fn numbers_of_header(&self) -> Vec<(&str, String)> {
        let number_in = |line: &'static str| {
            let mut words = line.strip_prefix("#define ")?.split_whitespace();
            let (name, number) = (words.next()?, words.next()?);
            let is_named = name.starts_with(self.prefix) && !name.starts_with("SCTP_ASSOC_VERSION");
            let is_number = number.parse::<u64>().is_ok() || number.ends_with("_MAX");
            (is_named && is_number).then(|| (name, number.to_string()))
        };
        sorted(self.header.lines().filter_map(number_in))
    }

    /// The calls that the header declares, in the words of Rust.
    fn calls_of_header(&self) -> Vec<String> {
        let call_at = |line: &'static str| {
            let (head, arguments) = line.split_once(';')?.0.strip_suffix(')')?.split_once('(')?;
            let (name, answer) = declared(head);
            let types = arguments.split(',').map(|argument| declared(argument.trim()).1).filter(|of| of != "void");
            (line.starts_with(char::is_alphabetic) && name.starts_with("sctp_")).then(|| call(name, types, &answer))
        };
        sorted(self.header.match_indices('\n').filter_map(|(end, _)| call_at(&self.header[end + 1..])))
    }

    /// Those that are declared here.
    fn calls_here(&self) -> Vec<String> {
        let call_at = |text: &'static str| {
            let (name, rest) = text.split_once('(')?;
            let (arguments, answer) = rest.split_once(';')?.0.split_once(") -> ")?;
            let types = arguments.split(',').filter_map(|argument| argument.split_once(": ")).map(|(_, of)| of.into());
            Some(call(name, types, answer))
        };
        sorted(self.calls.split("pub fn ").skip(1).filter_map(call_at))
    }

    /// Each number that the header names has the same name here, each call that it declares is declared here with the
    /// same types, and no others are.
    fn assert_same(&self) {
        assert_eq!(sorted(self.numbers.lines().filter_map(number_of)), self.numbers_of_header());
        assert_eq!(self.calls_here(), self.calls_of_header());
    }
}

/// A call without the names of what it gets.
fn call(name: &str, types: impl Iterator<Item = String>, answer: &str) -> String {
    format!("{name}({}) -> {answer}", types.collect::<Vec<_>>().join(", "))
}

/// The name that C declares, if it has one, and its type in the words of Rust.
fn declared(in_c: &str) -> (&str, String) {
    let (to, rest) = in_c.strip_prefix("const ").map_or(("*mut", in_c), |rest| ("*const", rest));
    let (of, name) = rest.split_once(' ').unwrap_or((rest, ""));
    let of = match of {
        "uint8_t" => "u8",
        "uint16_t" => "u16",
        "uint32_t" => "u32",
        "uint64_t" => "u64",
        "size_t" => "usize",
        "char" => "c_char",
        same => same,
    };
    name.strip_prefix('*').map_or((name, of.into()), |name| (name, format!("{to} {of}")))
}

fn sorted<T: Ord>(items: impl Iterator<Item = T>) -> Vec<T> {
    let mut items: Vec<T> = items.collect();
    items.sort();
    items
}

/// The number of a name here, in the words of C.
fn number_of(line: &str) -> Option<(&str, String)> {
    let (name, rest) = line.strip_prefix("pub const ")?.split_once(": ")?;
    let number = rest.split_once(" = ")?.1.strip_suffix(';')?;
    Some((name, number.replace("usize::MAX", "SIZE_MAX").replace("u32::MAX", "UINT32_MAX")))
}

#[test]
fn numbers_and_calls_are_those_of_the_header() {
    assert!(ASSOCIATION.calls_of_header().len() > 30 && ASSOCIATION.numbers_of_header().len() > 30);
    ASSOCIATION.assert_same();
}

#[cfg(feature = "channels")]
#[test]
fn numbers_and_calls_of_channels_are_those_of_the_header() {
    assert!(CHANNELS.calls_of_header().len() > 10 && CHANNELS.numbers_of_header().len() > 10);
    CHANNELS.assert_same();
}

/// Adds the size of a struct and the place and size of each of its fields to a list, as `host/layout.txt` has them.
macro_rules! layout {
    ($listed:ident, $type:ident, $($field:ident),*) => {
        let name = stringify!($type);
        $listed += &format!("{name} {}\n", size_of::<$type>());
        // SAFETY: each field of these structs may have all bytes 0.
        let made: $type = unsafe { MaybeUninit::zeroed().assume_init() };
        let $type { $($field: _),* } = &made; // no field is left out
        $(
            let offset = addr_of!(made.$field) as usize - addr_of!(made) as usize;
            $listed += &format!("{name}.{} {} {}\n", stringify!($field), offset, size_of_val(&made.$field));
        )*
    };
}

/// Each struct is laid out as the header's, of which `host/layout.c` prints the list.
#[test]
fn structs_are_laid_out_as_in_the_header() {
    let mut listed = String::new();
    layout!(listed, sctp_assoc, at, live);
    layout!(
        listed,
        sctp_assoc_config,
        max_receive_buffer_size,
        max_send_message_size,
        max_receive_message_size,
        max_num_outbound_streams,
        max_num_inbound_streams,
        local_port,
        remote_port,
        profile,
        rto_initial_ms,
        rto_min_ms,
        rto_max_ms,
        max_init_retransmits,
        max_data_retransmits
    );
    layout!(listed, sctp_assoc_identity, tag, initial_tsn, cookie);
    layout!(listed, sctp_assoc_token, tag, initial_tsn, window, num_outbound_streams, num_inbound_streams, forward_tsn);
    layout!(listed, sctp_assoc_counters, messages_sent, bytes_sent, messages_received, bytes_received);
    layout!(listed, sctp_assoc_event, kind, reason, stream, counters);
    layout!(listed, sctp_assoc_totals, data_chunks, sacks, retransmission_timeouts, ack_timeouts, fast_retransmissions);
    layout!(
        listed,
        sctp_assoc_path_values,
        mtu,
        congestion_window,
        slow_start_threshold,
        peer_window,
        bytes_in_flight,
        smoothed_round_trip_ms
    );
    layout!(
        listed,
        sctp_assoc_watch,
        datagrams_sent,
        bytes_sent,
        datagrams_received,
        bytes_received,
        end,
        cause,
        reason_length,
        reason
    );
    layout!(
        listed,
        sctp_assoc_metrics,
        path,
        totals,
        rto_ms,
        datagrams_sent,
        bytes_sent,
        datagrams_received,
        bytes_received,
        next_timeout,
        timer_runs,
        established,
        closing,
        closed,
        drained,
        failed
    );
    layout!(listed, sctp_assoc_heap, allocate, reallocate, release, user);
    // This crate does not name the functions that a program may define itself.
    let of_header = include_str!("../../../../host/layout.txt").lines().filter(|line| !line.contains("_block"));
    assert_eq!(listed.lines().collect::<Vec<_>>(), of_header.collect::<Vec<_>>());
}

#[cfg(feature = "channels")]
#[test]
fn structs_of_channels_are_laid_out_as_in_the_header() {
    let mut listed = String::new();
    layout!(listed, sctp_channels, at, live);
    layout!(listed, sctp_peer, assoc, channels);
    layout!(listed, sctp_channels_options, reliability, value, priority, id, unordered, negotiated);
    layout!(listed, sctp_channels_event, kind, reason, id);
    layout!(
        listed,
        sctp_channels_info,
        reliability,
        value,
        state,
        priority,
        label_length,
        protocol_length,
        unordered,
        negotiated
    );
    let of_header = include_str!("../../../../host/layout_channels.txt");
    assert_eq!(sorted(listed.lines()), sorted(of_header.lines()));
}
