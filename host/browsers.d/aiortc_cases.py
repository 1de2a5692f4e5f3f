"""The cases for aiortc, by the names of cases.py. Each gets a connection that was not begun yet, raises if something is
amiss, and may give a note for people."""
import asyncio
import random
import time

from aiortc_connection import IS_LOSSY, QUERY, Connection, Failure, expect_equal, within

ROUNDS = 10
MANY_ROUNDS = 100
BULK_MESSAGES = int(QUERY["bulk"])
BULK_LENGTH = 16384
KINDS = [
    {"ordered": ordered, **limit}
    for limit in ({}, {"maxRetransmits": 0}, {"maxRetransmits": 3}, {"maxPacketLifeTime": 500})
    for ordered in (True, False)
]
NOISE = random.Random(1).randbytes(1 << 19)
LETTERS = bytes(33 + byte % 94 for byte in NOISE).decode()


def bytes_of(length, seed):
    """Content that differs from message to message: a piece of one sequence of pseudo-random bytes."""
    start = seed * 251 % 65536
    return NOISE[start : start + length]


def text_of(length, seed):
    start = seed * 251 % 65536
    return LETTERS[start : start + length]


def is_reliable(kind):
    return len(kind) == 1


async def echo_each(channel):
    """One at a time, since on an unordered channel they may come back in another order."""
    for message in ("hello", "Grüße, 世界 🎈", bytes_of(5, 1), bytes_of(3000, 2), ""):
        await channel.echo(message)


async def channels_by_peer(connection):
    await connection.begin()
    for kind in KINDS:
        channel = await connection.create("kind", **kind)
        if not IS_LOSSY or is_reliable(kind):
            await echo_each(channel)
        await connection.expect_listed(channel)
        await channel.close()


async def channels_by_program(connection):
    await connection.begin()
    for kind in KINDS:
        retransmits, lifetime = kind.get("maxRetransmits"), kind.get("maxPacketLifeTime")
        number = 1 if retransmits is not None else 2 if lifetime is not None else 0
        unordered = int(not kind["ordered"])
        channel = await connection.opened_by_program(f"kind - {unordered} {number} {retransmits or lifetime or 0}")
        expect_equal(channel.channel.ordered, kind["ordered"], "ordered")
        expect_equal(channel.channel.maxRetransmits, retransmits, "maxRetransmits")
        expect_equal(channel.channel.maxPacketLifeTime, lifetime, "maxPacketLifeTime")
        if not IS_LOSSY or is_reliable(kind):
            await echo_each(channel)
        await channel.close()


async def names_by_peer(connection):
    await connection.begin()
    channel = await connection.create("Größe ✓ 🎈", protocol="prötokoll")
    await connection.expect_listed(channel)
    await channel.echo("hello")


async def names_by_program(connection):
    await connection.begin()
    channel = await connection.opened_by_program("Größe✓🎈 prötokoll 0 0 0")
    expect_equal(channel.channel.label, "Größe✓🎈", "the label")
    expect_equal(channel.channel.protocol, "prötokoll", "the protocol")
    await channel.echo("hello")


async def negotiated(connection):
    await connection.begin()
    for identifier in (101, 250, 1000, 65534):
        channel = await connection.negotiate(identifier)
        await echo_each(channel)
        await channel.close()


async def negotiated_again(connection):
    await connection.begin()
    for turn in range(ROUNDS):
        channel = await connection.negotiate(40)
        await channel.echo(f"round {turn}")
        if turn % 2 == 0:
            await channel.close()
        else:
            await connection.close_by_program(channel)


async def echo_in_any_order(channel, sent):
    """Sends messages that differ, and finds each of them once."""
    missing = set(sent)
    expect_equal(len(missing), len(sent), "the number of different messages")
    for message in sent:
        channel.send(message)
    for _ in sent:
        message = await channel.next(60)
        if message not in missing:
            raise Failure("a message came twice, or was not sent")
        missing.remove(message)


def words_of(channel, count):
    return [f"channel {channel}, message {i}" for i in range(count)]


async def sent_behind_open(connection):
    """The first messages of a channel are sent as soon as it tells that it is open."""
    await connection.begin()

    async def use(i):
        channel = connection.make("behind", ordered=i % 2 == 0)
        await channel.is_open()
        if i % 2 == 0:
            await channel.echo(*words_of(i, 20))
        else:
            await echo_in_any_order(channel, words_of(i, 20))

    await asyncio.gather(*(use(i) for i in range(50)))


async def before_connection(connection):
    channels = [connection.make(f"before {i}", **kind) for i, kind in enumerate(KINDS)]
    await connection.begin()
    for kind, channel in zip(KINDS, channels):
        await channel.is_open()
        if not IS_LOSSY or is_reliable(kind):
            await echo_each(channel)
        await connection.expect_listed(channel)


async def empty_messages(connection):
    await connection.begin()
    channel = await connection.create("")
    await channel.echo("", b"", "x", b"x")
    await channel.echo(*(["", b""] * 20))


async def lengths(connection):
    """Every length around one, two and three pieces of a message, by either side's payload size."""
    await connection.begin()
    channel = await connection.create("lengths")
    for first, last in ((1, 40), (1100, 1240), (2240, 2420), (3400, 3560), (16380, 16390)):
        await channel.echo(*((text_of if n % 2 else bytes_of)(n, n) for n in range(first, last + 1)))


async def long_messages(connection):
    await connection.begin()
    channel = await connection.create("long")
    await channel.echo(bytes_of(65535, 1), text_of(65535, 2))
    await channel.echo(*(bytes_of(60000 + 7 * i, i) for i in range(8)))


async def longest_messages(connection):
    """Its description allows 65,536 bytes."""
    await connection.begin()
    expect_equal("a=max-message-size:65536" in connection.peer.localDescription.sdp, True, "the greatest length")
    await (await connection.create("longest")).echo(bytes_of(65536, 1), text_of(65536, 2))


async def small_messages(connection):
    await connection.begin()
    channel = await connection.create("small")
    for i in range(10000):
        channel.send(f"message {i}")
    for i in range(10000):
        await channel.expect(f"message {i}", 60)


async def small_unordered(connection):
    await connection.begin()
    await echo_in_any_order(await connection.create("small", ordered=False), [f"message {i}" for i in range(10000)])


async def unordered(connection):
    await connection.begin()
    channel = await connection.create("unordered", ordered=False)
    await echo_in_any_order(channel, [bytes_of(1 + i * 37 % 5000, i) for i in range(500)])


async def bulk(connection):
    await connection.begin()
    channel, began = await connection.create("bulk"), time.monotonic()
    channel.channel.bufferedAmountLowThreshold = 1 << 18

    async def send():
        for i in range(BULK_MESSAGES):
            if channel.channel.bufferedAmount > 1 << 20:
                channel.low.clear()
                await within(channel.low.wait(), "bufferedamountlow", 60)
            channel.send(bytes_of(BULK_LENGTH, i))

    async def take():
        for i in range(BULK_MESSAGES):
            await channel.expect(bytes_of(BULK_LENGTH, i), 60)

    await asyncio.gather(send(), take())
    return f"{BULK_MESSAGES} messages of 16 KiB each way in {time.monotonic() - began:.1f} s"


async def numbers_of_echoes(channel, count):
    """Sends numbered messages, so slowly that none is dropped for want of room, and gives the numbers that came
    back."""
    waiting = channel.messages
    for i in range(count):
        channel.send(f"{i} {text_of(2000, i)}")
        for _ in range(5 if IS_LOSSY else 500):
            if i % 10 < 9 or waiting.qsize() > i:
                break
            await asyncio.sleep(0.01)
    before = -1
    while before != waiting.qsize() < count:
        before = waiting.qsize()
        await asyncio.sleep(3)
    numbers = []
    while waiting.qsize():
        text = waiting.get_nowait()
        number = int(text.split(" ")[0])
        expect_equal(text, f"{number} {text_of(2000, number)}", "a message")
        numbers.append(number)
    return numbers


async def unreliable(connection, limit):
    """Without loss all come back, and with it most."""
    count, notes = 300, []
    await connection.begin()
    for ordered in (True, False):
        channel = await connection.create("unreliable", ordered=ordered, **limit)
        came = await numbers_of_echoes(channel, count)
        expect_equal(len(set(came)), len(came), "the number of different messages")
        if ordered:
            expect_equal(came, sorted(came), "the order")
        if len(came) < (count / 2 if IS_LOSSY else count):
            raise Failure(f"only {len(came)} of {count} came back, ordered: {ordered}")
        if IS_LOSSY and limit.get("maxRetransmits") == 0:
            expect_equal(len(came) < count, True, "that some were given up")
        notes.append(f"{len(came)} of {count}")
        await channel.close()
    return ", ".join(notes)


async def retransmit_limit_0(connection):
    return await unreliable(connection, {"maxRetransmits": 0})


async def lifetime(connection):
    return await unreliable(connection, {"maxPacketLifeTime": 200})


async def each(awaited):
    return await asyncio.gather(*awaited)


async def fifty_channels(connection):
    await connection.begin()
    for _ in range(2):
        channels = await each(connection.create(f"channel {i}") for i in range(50))
        await each(channel.echo(*words_of(i, 10)) for i, channel in enumerate(channels))
        await each(channel.close() for channel in channels)
    channels = [await connection.opened_by_program(f"channel{i} - 0 0 0") for i in range(50)]
    await each(channel.echo(*words_of(i, 10)) for i, channel in enumerate(channels))
    for channel in channels:
        await connection.close_by_program(channel)


async def opened_at_once_by_program(connection, count):
    for i in range(count):
        connection.control.send(f"open channel{i} - 0 0 0 0 0")
    identifiers, opened = {}, []
    for i in range(count):
        answer = await connection.answer("open")
        expect_equal(answer["code"], 0, "the code of open")
        identifiers[f"channel{i}"] = answer["id"]
    for i in range(count):
        channel = await connection.next_announced(f"the announcement {i} of {count}")
        expect_equal(channel.channel.id, identifiers.pop(channel.channel.label), "the identifier")
        opened.append(channel)
    return opened


async def channels_at_once(connection):
    await connection.begin()
    channels = await each(connection.create(f"channel {i}") for i in range(200))
    await each(channel.echo(*words_of(i, 10)) for i, channel in enumerate(channels))
    channels = await opened_at_once_by_program(connection, 100)
    await each(channel.echo(*words_of(i, 10)) for i, channel in enumerate(channels))


async def many_by_program(connection, count):
    await connection.begin()
    channels = await opened_at_once_by_program(connection, count)
    await channels[-1].echo("hello")


async def reopened(connection, rounds, end):
    """Opens a channel, uses it and ends it, and again at once, so that a peer may take the same identifier."""
    await connection.begin()
    identifiers = set()
    for turn in range(rounds):
        channel = await connection.create("again")
        identifiers.add(channel.channel.id)
        await channel.echo(f"round {turn}")
        await end(channel)
    return f"{len(identifiers)} identifiers in {rounds} rounds"


async def reopened_by_peer(connection):
    return await reopened(connection, ROUNDS, lambda channel: channel.close())


async def reopened_by_program(connection):
    return await reopened(connection, ROUNDS, connection.close_by_program)


async def reopened_by_both(connection):
    async def end(channel):
        connection.control.send(f"close {channel.channel.id}")
        await channel.close()
        answer = await connection.answer("close")
        if answer["code"] not in (0, 14, 43):  # the latter: there is no such stream or channel any more
            raise Failure(f"the code of close is {answer['code']}")

    return await reopened(connection, MANY_ROUNDS, end)


async def reconnection(connection):
    """Without loss the end of the connection before is told to the peer; with it the ABORT may be lost."""
    before = await connection.begin()
    try:
        for turn in range(5):
            channel = await before.create("one")
            await channel.echo(f"round {turn}")
            following = await Connection().begin()
            if not IS_LOSSY:
                await channel.is_closed()
            await before.end()
            before = following
            await (await before.create("next")).echo(f"after round {turn}")
    finally:
        await before.end()


async def begun(connection):
    await connection.begin()
    channel = await connection.create("one")
    await channel.echo("hello")
    return channel


async def end_by_peer(connection):
    """The program is to notice the end before the next case makes another offer."""
    await begun(connection)
    await connection.end()
    await asyncio.sleep(1)


async def end_by_program(connection, words):
    channel = await begun(connection)
    connection.control.send(words)
    await channel.is_closed()
    await connection.control.is_closed()


CASES = {
    "channels-by-peer": channels_by_peer,
    "channels-by-program": channels_by_program,
    "names-by-peer": names_by_peer,
    "names-by-program": names_by_program,
    "negotiated": negotiated,
    "negotiated-again": negotiated_again,
    "sent-behind-open": sent_behind_open,
    "before-connection": before_connection,
    "empty-messages": empty_messages,
    "lengths": lengths,
    "long-messages": long_messages,
    "longest-messages": longest_messages,
    "small-messages": small_messages,
    "small-unordered": small_unordered,
    "unordered": unordered,
    "bulk": bulk,
    "retransmit-limit-0": retransmit_limit_0,
    "lifetime": lifetime,
    "fifty-channels": fifty_channels,
    "channels-at-once": channels_at_once,
    "thousand-channels": lambda connection: many_by_program(connection, 1000),
    "past-2047": lambda connection: many_by_program(connection, 1030),
    "reopened-by-peer": reopened_by_peer,
    "reopened-by-program": reopened_by_program,
    "reopened-by-both": reopened_by_both,
    "reconnection": reconnection,
    "end-by-peer": end_by_peer,
    "end-in-order": lambda connection: end_by_program(connection, "shutdown"),
    "end-by-abort": lambda connection: end_by_program(connection, "abort enough"),
}
