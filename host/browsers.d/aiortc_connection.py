"""A connection of aiortc to the program under test, and channels whose messages wait until a case asks for them."""
import asyncio
import json
import sys
import urllib.parse
import urllib.request

from aiortc import RTCPeerConnection, RTCSessionDescription

BASE = sys.argv[1]
QUERY = dict(urllib.parse.parse_qsl(sys.argv[2]))
IS_LOSSY = QUERY["loss"] != "0"
LIMIT = 20  # seconds that one step of a case may take
CONNECT_LIMIT = 40


class Failure(Exception):
    """What a case found amiss."""


def expect_equal(value, expected, what):
    if value != expected:
        raise Failure(f"{what} is {value!r} and not {expected!r}")


async def within(awaited, what, seconds=LIMIT):
    try:
        return await asyncio.wait_for(awaited, seconds)
    except asyncio.TimeoutError:
        raise Failure(f"{what} did not come within {seconds} s") from None


async def post(path, body):
    def send():
        with urllib.request.urlopen(BASE + path, body, timeout=CONNECT_LIMIT) as answer:
            return answer.read()

    return await asyncio.get_running_loop().run_in_executor(None, send)


class Channel:
    def __init__(self, channel):
        self.channel = channel
        self.messages = asyncio.Queue()
        self.opened, self.closed, self.low = asyncio.Event(), asyncio.Event(), asyncio.Event()
        channel.on("message", self.messages.put_nowait)
        channel.on("open", self.opened.set)
        channel.on("close", self.closed.set)
        channel.on("bufferedamountlow", self.low.set)
        if channel.readyState == "open":
            self.opened.set()

    def __str__(self):
        return f"'{self.channel.label}' ({self.channel.id}, {self.channel.readyState})"

    def send(self, message):
        self.channel.send(message)

    async def next(self, seconds=LIMIT):
        return await within(self.messages.get(), f"a message on {self}", seconds)

    async def expect(self, message, seconds=LIMIT):
        came = await self.next(seconds)
        if type(came) is not type(message) or came != message:
            raise Failure(f"on {self} came {len(came)} of {type(came)}, and not {len(message)} of {type(message)}")

    async def echo(self, *messages):
        for message in messages:
            self.send(message)
        for message in messages:
            await self.expect(message)

    async def is_open(self):
        await within(self.opened.wait(), f"the opening of {self}")
        return self

    async def is_closed(self):
        await within(self.closed.wait(), f"the end of {self}")

    async def close(self):
        self.channel.close()
        await self.is_closed()


class Connection:
    def __init__(self):
        self.peer = RTCPeerConnection()
        self.announced = asyncio.Queue()
        self.peer.on("datachannel", lambda channel: self.announced.put_nowait(Channel(channel)))
        self.control = self.make("control")

    async def begin(self):
        """Connects. Channels that were made before are open then, or open soon."""
        await self.peer.setLocalDescription(await self.peer.createOffer())
        answer = await post("offer", self.peer.localDescription.sdp.encode())
        await self.peer.setRemoteDescription(RTCSessionDescription(answer.decode(), "answer"))
        await within(self.control.opened.wait(), "the connection", CONNECT_LIMIT)
        return self

    def state(self):
        sctp = self.peer.sctp and self.peer.sctp.state
        return f"ICE {self.peer.iceConnectionState}, connection {self.peer.connectionState}, SCTP {sctp}"

    async def answer(self, what):
        return json.loads(await within(self.control.messages.get(), f"the answer to '{what}'"))

    async def command(self, text):
        self.control.send(text)
        return await self.answer(text)

    def make(self, label, **options):
        return Channel(self.peer.createDataChannel(label, **options))

    async def create(self, label, **options):
        """A channel that was made here, once it is open."""
        return await self.make(label, **options).is_open()

    async def next_announced(self, what):
        return await (await within(self.announced.get(), what)).is_open()

    async def opened_by_program(self, words):
        """Has the program open a channel, and gives this side of it, which has to have the same identifier."""
        answer = await self.command(f"open {words} 0 0")
        expect_equal(answer["code"], 0, "the code of open")
        channel = await self.next_announced("the channel of the program")
        expect_equal(channel.channel.id, answer["id"], "the identifier")
        return channel

    async def close_by_program(self, channel):
        expect_equal((await self.command(f"close {channel.channel.id}"))["code"], 0, "the code of close")
        await channel.is_closed()

    async def negotiate(self, identifier):
        """Opens the channel at both sides. The program refuses its identifier until it was told the end of the one
        before."""
        channel = self.make("negotiated", negotiated=True, id=identifier)
        text = f"open negotiated - 0 0 0 1 {identifier}"
        answer = await self.command(text)
        for _ in range(100):
            if answer["code"] == 0:
                break
            await asyncio.sleep(0.05)
            answer = await self.command(text)
        expect_equal(answer["code"], 0, "the code of open")
        return await channel.is_open()

    async def expect_listed(self, channel):
        listed = (await self.command("stats"))["channels"]
        found = [entry for entry in listed if entry["id"] == channel.channel.id]
        expect_equal(len(found), 1, "the number of channels that the program lists")
        expect_equal(found[0]["label"], channel.channel.label, "the label that the program lists")
        expect_equal(found[0]["state"], "open", "the state that the program lists")

    async def end(self):
        await self.peer.close()
