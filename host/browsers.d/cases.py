"""The cases: their names, what they are about, and how long they may take."""
from dataclasses import dataclass


@dataclass(frozen=True)
class Case:
    name: str
    title: str
    seconds: int = 60  # from the end of the case before to its own end
    program_says: str = ""  # of an end: what the program has to print then, as a regular expression


CASES = [
    Case("channels-by-peer", "channels of every type by the peer"),
    Case("channels-by-program", "channels of every type by this side"),
    Case("names-by-peer", "label and protocol in UTF-8 by the peer"),
    Case("names-by-program", "label and protocol in UTF-8 by this side"),
    Case("negotiated", "negotiated channels"),
    Case("negotiated-again", "a negotiated identifier closed and opened again, 10 times"),
    Case("sent-behind-open", "messages right behind the OPEN"),
    Case("before-connection", "channels opened before the connection is up"),
    Case("empty-messages", "empty messages, label and protocol"),
    Case("lengths", "every length around the borders of pieces"),
    Case("long-messages", "messages of up to 65,535 bytes"),
    Case("longest-messages", "messages of up to 256 KiB, or of what the peer allows"),
    Case("small-messages", "10,000 small messages in order", 120),
    Case("small-unordered", "10,000 small messages, unordered", 120),
    Case("unordered", "unordered messages of many lengths"),
    Case("bulk", "20 MB both ways with back pressure (with loss: 5 MB)", 300),
    Case("retransmit-limit-0", "no retransmission", 120),
    Case("lifetime", "a lifetime of 200 ms", 120),
    Case("fifty-channels", "50 channels opened and closed, three times", 180),
    Case("channels-at-once", "300 channels at once"),
    Case("thousand-channels", "1,000 channels at once by this side", 180),
    Case("past-2047", "1,030 channels at once by this side, past identifier 2047", 180),
    Case("reopened-by-peer", "a channel opened again after the peer's close, 10 times", 120),
    Case("reopened-by-program", "a channel opened again after this side's close, 10 times", 120),
    Case("reopened-by-both", "a channel opened again after both sides' close, 100 times", 300),
    Case("reconnection", "a new offer in place of a connection, 5 times", 120),
    Case("end-by-peer", "the end by the peer", program_says="ended: the page (aborted it|closed DTLS)"),
    Case("end-in-order", "the end in order by this side", program_says="ended: it was shut down in order"),
    Case("end-by-abort", "the end by an ABORT of this side, with its reason",
         program_says="ended: it was aborted here"),
]
