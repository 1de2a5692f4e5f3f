// The cases, by the names of cases.py. Each gets a connection that was not begun yet, throws if something is amiss, and
// may give a note for people.
import {
  bytesOf, Connection, expectEqual, isLossy, isSame, parameters, sleep, textOf, within,
} from './connection.js';

const isChromium = /Chrome/.test(navigator.userAgent);
const BULK_MESSAGES = Number(parameters.get('bulk'));
const BULK_LENGTH = 16384;
const ROUNDS = 10;
const MANY_ROUNDS = 100;

const KINDS = [
  {}, { ordered: false },
  { maxRetransmits: 0 }, { ordered: false, maxRetransmits: 0 },
  { maxRetransmits: 3 }, { ordered: false, maxRetransmits: 3 },
  { maxPacketLifeTime: 500 }, { ordered: false, maxPacketLifeTime: 500 },
];

const isReliable = kind => kind.maxRetransmits === undefined && kind.maxPacketLifeTime === undefined;
const numbers = count => [...Array(count).keys()];

// One at a time, since on an unordered channel they may come back in another order.
async function echoEach(channel) {
  for (const message of ['hello', 'Grüße, 世界 🎈', bytesOf(5, 1), bytesOf(3000, 2), '']) await channel.echo(message);
}

// A channel may be open here before the program has its OPEN, and while the program still has the one that was there.
async function expectListed(connection, channel) {
  const find = async () =>
    (await connection.command('stats')).channels.find(entry => entry.id === channel.channel.id);
  let listed = await find();
  for (let i = 0; i < 100 && listed?.state !== 'open'; i++) {
    await sleep(0.1);
    listed = await find();
  }
  expectEqual(listed?.label, channel.channel.label, 'the label that the program lists');
  expectEqual(listed.state, 'open', 'the state that the program lists');
}

async function channelsByPeer(connection) {
  await connection.begin();
  for (const kind of KINDS) {
    const channel = await connection.create('kind', kind);
    if (!isLossy || isReliable(kind)) await echoEach(channel);
    await expectListed(connection, channel);
    await channel.close();
  }
}

async function channelsByProgram(connection) {
  await connection.begin();
  for (const kind of KINDS) {
    const number = kind.maxRetransmits !== undefined ? 1 : kind.maxPacketLifeTime !== undefined ? 2 : 0;
    const channel = await connection.openedByProgram('kind', {
      unordered: kind.ordered === false ? 1 : 0,
      kind: number,
      value: kind.maxRetransmits ?? kind.maxPacketLifeTime ?? 0,
    });
    const { ordered, maxRetransmits, maxPacketLifeTime } = channel.channel;
    expectEqual(ordered, kind.ordered ?? true, 'ordered');
    expectEqual(maxRetransmits, kind.maxRetransmits ?? null, 'maxRetransmits');
    expectEqual(maxPacketLifeTime, kind.maxPacketLifeTime ?? null, 'maxPacketLifeTime');
    if (!isLossy || isReliable(kind)) await echoEach(channel);
    await channel.close();
  }
}

async function namesByPeer(connection) {
  await connection.begin();
  const channel = await connection.create('Größe ✓ 🎈', { protocol: 'prötokoll' });
  await expectListed(connection, channel);
  await channel.echo('hello');
}

async function namesByProgram(connection) {
  await connection.begin();
  const channel = await connection.openedByProgram('Größe✓🎈', { protocol: 'prötokoll' });
  expectEqual(channel.channel.label, 'Größe✓🎈', 'the label');
  expectEqual(channel.channel.protocol, 'prötokoll', 'the protocol');
  await channel.echo('hello');
}

async function negotiated(connection) {
  await connection.begin();
  for (const id of [101, 250, 1000]) {
    const channel = await connection.negotiate(id);
    await echoEach(channel);
    await channel.close();
  }
}

async function negotiatedAgain(connection) {
  await connection.begin();
  for (const round of numbers(ROUNDS)) {
    const channel = await connection.negotiate(40);
    await channel.echo(`round ${round}`);
    if (round % 2 === 0) await channel.close();
    else await connection.closeByProgram(channel);
  }
}

async function emptyMessages(connection) {
  await connection.begin();
  const channel = await connection.create('', { protocol: '' });
  await channel.echo('', bytesOf(0, 0), 'x', bytesOf(1, 0));
  await channel.echo(...numbers(40).map(i => i % 2 === 0 ? '' : bytesOf(0, 0)));
}

// Every length around one, two and three pieces of a message, by either side's payload size.
async function lengths(connection) {
  await connection.begin();
  const channel = await connection.create('lengths');
  for (const [first, last] of [[1, 40], [1100, 1240], [2240, 2420], [3400, 3560], [16380, 16390]])
    await channel.echo(...numbers(last + 1 - first).map(i =>
      i % 2 === 0 ? bytesOf(first + i, i) : textOf(first + i, i)));
}

async function longMessages(connection) {
  await connection.begin();
  const channel = await connection.create('long');
  await channel.echo(bytesOf(65535, 1), textOf(65535, 2));
  await channel.echo(...numbers(8).map(i => bytesOf(60000 + 7 * i, i)));
}

async function longestMessages(connection) {
  await connection.begin();
  const limit = connection.peer.sctp.maxMessageSize;
  expectEqual(limit, 262144, 'the greatest length');
  const channel = await connection.create('longest');
  for (const length of [65536, 65537, 131072, limit - 1, limit]) await channel.echo(bytesOf(length, length));
  await channel.echo(textOf(limit, 3));
  let refusal = 'none';
  try {
    channel.send(bytesOf(limit + 1, 4));
  } catch (error) {
    refusal = error.name;
  }
  expectEqual(refusal, 'TypeError', 'the refusal of a longer message');
}

async function smallMessages(connection) {
  await connection.begin();
  const channel = await connection.create('small');
  for (const i of numbers(10000)) channel.send(`message ${i}`);
  for (const i of numbers(10000)) await channel.expect(`message ${i}`, 60);
}

// Takes as many messages as were sent, and finds each of them once.
async function expectAll(channel, sent) {
  const missing = new Map();
  for (const message of sent) missing.set(keyOf(message), message);
  expectEqual(missing.size, sent.length, 'the number of different messages');
  for (const _ of sent) {
    const message = await channel.next(60);
    const expected = missing.get(keyOf(message));
    if (expected === undefined || !isSame(message, expected))
      throw new Error('a message came twice, or was not sent');
    missing.delete(keyOf(message));
  }
}

const keyOf = message => typeof message === 'string' ? message :
  `${message.byteLength} ${new Uint8Array(message).slice(0, 8).join()}`;

async function smallMessagesUnordered(connection) {
  await connection.begin();
  const channel = await connection.create('small', { ordered: false });
  const sent = numbers(10000).map(i => `message ${i}`);
  for (const message of sent) channel.send(message);
  await expectAll(channel, sent);
}

async function unordered(connection) {
  await connection.begin();
  const channel = await connection.create('unordered', { ordered: false });
  const sent = numbers(500).map(i => bytesOf(1 + (i * 37) % 5000, i));
  for (const message of sent) channel.send(message);
  await expectAll(channel, sent);
}

async function bulk(connection) {
  await connection.begin();
  const channel = await connection.create('bulk');
  const began = performance.now();
  await Promise.all([sendBulk(channel.channel), takeBulk(channel)]);
  return `${BULK_MESSAGES} messages of 16 KiB each way in ${((performance.now() - began) / 1000).toFixed(1)} s`;
}

async function sendBulk(channel) {
  channel.bufferedAmountLowThreshold = 1 << 18;
  for (const i of numbers(BULK_MESSAGES)) {
    if (channel.bufferedAmount > 1 << 20)
      await within(new Promise(resolve => channel.addEventListener('bufferedamountlow', resolve, { once: true })),
        'bufferedamountlow', 60);
    channel.send(bytesOf(BULK_LENGTH, i));
  }
}

async function takeBulk(channel) {
  for (const i of numbers(BULK_MESSAGES)) await channel.expect(bytesOf(BULK_LENGTH, i), 60);
}

const each = (channels, act) => Promise.all(channels.map(act));

async function fiftyChannels(connection) {
  await connection.begin();
  for (const round of numbers(2)) {
    const channels = await each(numbers(50), i => connection.create(`channel ${i}`));
    await each(channels, (channel, i) => channel.echo(`round ${round}, channel ${i}`));
    await each(channels, channel => channel.close());
  }
  const channels = [];
  for (const i of numbers(50)) channels.push(await connection.openedByProgram(`channel${i}`));
  await each(channels, (channel, i) => channel.echo(`channel ${i} of the program`));
  for (const channel of channels) await connection.closeByProgram(channel);
}

async function openedAtOnceByProgram(connection, count) {
  for (const i of numbers(count)) connection.control.send(`open channel${i} - 0 0 0 0 0`);
  const channels = new Map();
  for (const i of numbers(count)) {
    const answer = JSON.parse(await connection.control.next());
    expectEqual(answer.code, 0, `the code of open of channel ${i}`);
    channels.set(`channel${i}`, answer.id);
  }
  const opened = [];
  for (const i of numbers(count)) {
    const channel = await connection.announced.next(`the announcement ${i} of ${count}`);
    expectEqual(channel.channel.id, channels.get(channel.channel.label), 'the identifier');
    channels.delete(channel.channel.label);
    opened.push(await channel.isOpen());
  }
  return opened;
}

async function channelsAtOnce(connection) {
  const words = i => numbers(10).map(k => `channel ${i}, message ${k}`);
  await connection.begin();
  const channels = numbers(200).map(i => connection.make(`channel ${i}`));
  await each(channels, async (channel, i) => (await channel.isOpen()).echo(...words(i)));
  await each(await openedAtOnceByProgram(connection, 100), (channel, i) => channel.echo(...words(i)));
}

async function manyByProgram(connection, count) {
  await connection.begin();
  const channels = await openedAtOnceByProgram(connection, count);
  await channels.at(-1).echo('hello');
}

// Opens a channel, uses it and ends it, and again at once, so that a peer may take the same identifier.
async function reopened(connection, rounds, end) {
  const identifiers = new Set();
  await connection.begin();
  for (const round of numbers(rounds)) {
    const channel = await connection.create('again');
    identifiers.add(channel.channel.id);
    await channel.echo(`round ${round}`);
    await end(channel);
  }
  return `${identifiers.size} identifiers in ${rounds} rounds`;
}

const reopenedAfterPeer = connection => reopened(connection, ROUNDS, channel => channel.close());

const reopenedAfterProgram = connection =>
  reopened(connection, ROUNDS, channel => connection.closeByProgram(channel));

const reopenedAfterBoth = connection => reopened(connection, MANY_ROUNDS, async channel => {
  connection.control.send(`close ${channel.channel.id}`);
  await channel.close();
  const { code } = JSON.parse(await connection.control.next());
  if (![0, 14, 43].includes(code)) // 14, 43: that there is no such stream or channel any more
    throw new Error(`the code of close is ${code}`);
});

// Sends numbered messages, so slowly that none is dropped for want of room, and gives the numbers that came back.
async function numbersOfEchoes(channel, count) {
  const textOfNumber = i => `${i} ${textOf(2000, i)}`;
  const waiting = channel.messages.items;
  for (const i of numbers(count)) {
    channel.send(textOfNumber(i));
    if (i % 10 === 9)
      for (let waits = 0; waiting.length <= i && waits < (isLossy ? 5 : 500); waits++) await sleep(0.01);
  }
  for (let came = -1; came !== waiting.length && waiting.length < count;) {
    came = waiting.length;
    await sleep(3);
  }
  return waiting.splice(0).map(text => {
    const number = parseInt(text);
    expectEqual(text, textOfNumber(number), 'a message');
    return number;
  });
}

// Without loss all come back, and with it most.
async function unreliable(connection, kind) {
  const count = 300, notes = [];
  await connection.begin();
  for (const ordered of [true, false]) {
    const channel = await connection.create('unreliable', { ...kind, ordered });
    const came = await numbersOfEchoes(channel, count);
    expectEqual(new Set(came).size, came.length, 'the number of different messages');
    if (ordered && came.some((number, i) => i > 0 && number < came[i - 1]))
      throw new Error('messages came in another order');
    if (isLossy ? came.length < count / 2 : came.length < count)
      throw new Error(`only ${came.length} of ${count} came back, ordered: ${ordered}`);
    if (isLossy && kind.maxRetransmits === 0) expectEqual(came.length < count, true, 'that some were given up');
    notes.push(`${came.length} of ${count}`);
    await channel.close();
  }
  return notes.join(', ');
}

const retransmitLimit0 = connection => unreliable(connection, { maxRetransmits: 0 });
const lifetime = connection => unreliable(connection, { maxPacketLifeTime: 200 });

// The first messages of a channel follow its OPEN before the program can have answered that.
async function sentBehindOpen(connection) {
  await connection.begin();
  await each(numbers(50), async i => {
    const sent = numbers(20).map(k => `channel ${i}, message ${k}`);
    const channel = connection.make('behind', { ordered: i % 2 === 0 });
    channel.channel.addEventListener('open', () => sent.forEach(message => channel.send(message)));
    if (i % 2 === 0) for (const message of sent) await channel.expect(message);
    else await expectAll(channel, sent);
  });
}

async function openedBeforeConnection(connection) {
  let channels;
  await connection.begin(() => {
    channels = KINDS.map((kind, i) => connection.make(`before ${i}`, kind));
  });
  for (const [i, channel] of channels.entries()) {
    await channel.isOpen();
    if (!isLossy || isReliable(KINDS[i])) await echoEach(channel);
    await expectListed(connection, channel);
  }
}

// Without loss the end of the connection before is told to the peer; with it the ABORT may be lost.
async function reconnection(connection) {
  let before = connection;
  await connection.begin();
  try {
    for (const round of numbers(5)) {
      const channel = await before.create('one');
      await channel.echo(`round ${round}`);
      const next = await new Connection().begin();
      if (!isLossy) await channel.isClosed();
      before.end();
      before = next;
      await (await before.create('next')).echo(`after round ${round}`);
    }
  } finally {
    before.end();
  }
}

async function begun(connection) {
  await connection.begin();
  const channel = await connection.create('one');
  await channel.echo('hello');
  return channel;
}

// The program is to notice the end before the next case makes another offer.
async function endByPeer(connection) {
  await begun(connection);
  connection.end();
  await sleep(1);
}

async function endInOrder(connection) {
  const channel = await begun(connection);
  connection.control.send('shutdown');
  await each([channel, connection.control], one => one.isClosed());
  expectEqual(channel.errors.length, 0, 'the number of errors');
}

async function endByAbort(connection) {
  const channel = await begun(connection);
  connection.control.send('abort enough');
  await each([channel, connection.control], one => one.isClosed());
  const [error] = channel.errors;
  if (!isChromium || isLossy) return `told: ${error?.message}`;
  expectEqual(error?.sctpCauseCode, 12, 'the cause of the ABORT');
  expectEqual(error.message.includes('enough'), true, 'that the reason is told');
  return `told: ${error.message}`;
}

export const cases = {
  'channels-by-peer': channelsByPeer,
  'channels-by-program': channelsByProgram,
  'names-by-peer': namesByPeer,
  'names-by-program': namesByProgram,
  'negotiated': negotiated,
  'negotiated-again': negotiatedAgain,
  'sent-behind-open': sentBehindOpen,
  'before-connection': openedBeforeConnection,
  'empty-messages': emptyMessages,
  'lengths': lengths,
  'long-messages': longMessages,
  'longest-messages': longestMessages,
  'small-messages': smallMessages,
  'small-unordered': smallMessagesUnordered,
  'unordered': unordered,
  'bulk': bulk,
  'retransmit-limit-0': retransmitLimit0,
  'lifetime': lifetime,
  'fifty-channels': fiftyChannels,
  'channels-at-once': channelsAtOnce,
  'thousand-channels': connection => manyByProgram(connection, 1000),
  'past-2047': connection => manyByProgram(connection, 1030),
  'reopened-by-peer': reopenedAfterPeer,
  'reopened-by-program': reopenedAfterProgram,
  'reopened-by-both': reopenedAfterBoth,
  'reconnection': reconnection,
  'end-by-peer': endByPeer,
  'end-in-order': endInOrder,
  'end-by-abort': endByAbort,
};
