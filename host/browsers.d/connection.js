// A connection to the program under test, and channels whose messages wait until a case asks for them.

export const parameters = new URLSearchParams(location.search);
export const isLossy = Number(parameters.get('loss')) > 0;

const LIMIT = 20; // seconds that one step of a case may take
const CONNECT_LIMIT = 40;

export const sleep = seconds => new Promise(resolve => setTimeout(resolve, 1000 * seconds));

export function within(promise, what, seconds = LIMIT) {
  let timer;
  const late = new Promise((_, reject) => {
    timer = setTimeout(() => reject(new Error(`${what} did not come within ${seconds} s`)), 1000 * seconds);
  });
  return Promise.race([promise, late]).finally(() => clearTimeout(timer));
}

export function expectEqual(value, expected, what) {
  if (value !== expected)
    throw new Error(`${what} is ${String(value).slice(0, 60)} and not ${String(expected).slice(0, 60)}`);
}

// Content that differs from message to message: pieces of one sequence of pseudo-random bytes.
const noise = new Uint8Array(1 << 19);
let state = 1;
for (let i = 0; i < noise.length; i++) {
  state = (Math.imul(state, 1664525) + 1013904223) | 0;
  noise[i] = state >>> 24;
}
const letters = Array.from(noise, byte => String.fromCharCode(33 + byte % 94)).join('');

const start = seed => seed * 251 % 65536;
export const bytesOf = (length, seed) => noise.subarray(start(seed), start(seed) + length);
export const textOf = (length, seed) => letters.slice(start(seed), start(seed) + length);

export function isSame(message, expected) {
  if (typeof message === 'string' || typeof expected === 'string') return message === expected;
  const bytes = new Uint8Array(message);
  return bytes.length === expected.length && bytes.every((byte, i) => byte === expected[i]);
}

const described = message => typeof message === 'string' ?
  `a text of ${message.length}: ${message.slice(0, 30)}` : `${message.byteLength} bytes`;

class Queue {
  items = [];
  wake = () => {};

  push(item) {
    this.items.push(item);
    this.wake();
  }

  async next(what, seconds) {
    if (this.items.length === 0)
      await within(new Promise(resolve => { this.wake = resolve; }), what, seconds);
    return this.items.shift();
  }
}

export class Channel {
  messages = new Queue();
  errors = [];

  constructor(channel) {
    this.channel = channel;
    channel.binaryType = 'arraybuffer';
    channel.addEventListener('message', event => this.messages.push(event.data));
    channel.addEventListener('error', event => this.errors.push(event.error));
    this.opened = new Promise(resolve => {
      if (channel.readyState === 'open') resolve();
      channel.addEventListener('open', resolve);
    });
    this.closed = new Promise(resolve => channel.addEventListener('close', resolve));
  }

  name() {
    return `'${this.channel.label}' (${this.channel.id}, ${this.channel.readyState})`;
  }

  send(message) {
    this.channel.send(message);
  }

  next(seconds) {
    return this.messages.next(`a message on ${this.name()}`, seconds);
  }

  async expect(message, seconds) {
    const came = await this.next(seconds);
    if (!isSame(came, message))
      throw new Error(`on ${this.name()} came ${described(came)}, and not ${described(message)}`);
  }

  async echo(...messages) {
    for (const message of messages) this.send(message);
    for (const message of messages) await this.expect(message);
  }

  async isOpen() {
    await within(this.opened, `the opening of ${this.name()}`);
    return this;
  }

  isClosed() {
    return within(this.closed, `the end of ${this.name()}`);
  }

  close() {
    this.channel.close();
    return this.isClosed();
  }
}

export class Connection {
  announced = new Queue();

  // Firefox gathers the addresses of the loopback interface, too, only for a page that captures.
  static async capture() {
    if (/Firefox/.test(navigator.userAgent) && !Connection.captured)
      Connection.captured = await navigator.mediaDevices.getUserMedia({ audio: true, fake: true });
  }

  // `before` may open channels on the connection before it is offered.
  async begin(before = () => {}) {
    await Connection.capture();
    this.peer = new RTCPeerConnection();
    this.peer.addEventListener('datachannel', event => this.announced.push(new Channel(event.channel)));
    this.control = new Channel(this.peer.createDataChannel('control'));
    before(this);
    await this.peer.setLocalDescription(await this.peer.createOffer());
    const reply = await fetch('offer', { method: 'POST', body: this.peer.localDescription.sdp });
    if (!reply.ok) throw new Error(`the offer was answered by ${reply.status}`);
    await this.peer.setRemoteDescription({ type: 'answer', sdp: await reply.text() });
    await within(this.control.opened, 'the connection', CONNECT_LIMIT);
    return this;
  }

  state() {
    const peer = this.peer;
    return `ICE ${peer?.iceConnectionState}, connection ${peer?.connectionState}, SCTP ${peer?.sctp?.state}`;
  }

  async command(text) {
    this.control.send(text);
    return JSON.parse(await this.control.messages.next(`the answer to '${text}'`));
  }

  make(label, options) {
    return new Channel(this.peer.createDataChannel(label, options));
  }

  // Channels that were made here, once they are open.
  create(label, options) {
    return this.make(label, options).isOpen();
  }

  // Has the program open a channel, and gives this side of it, which has to have the same identifier.
  async openedByProgram(label, { protocol = '-', unordered = 0, kind = 0, value = 0 } = {}) {
    const answer = await this.command(`open ${label} ${protocol} ${unordered} ${kind} ${value} 0 0`);
    expectEqual(answer.code, 0, 'the code of open');
    const channel = await this.announced.next(`the channel '${label}'`);
    expectEqual(channel.channel.id, answer.id, 'the identifier');
    return channel.isOpen();
  }

  async closeByProgram(channel) {
    expectEqual((await this.command(`close ${channel.channel.id}`)).code, 0, 'the code of close');
    return channel.isClosed();
  }

  // Opens the channel at both sides. The program refuses its identifier until it was told the end of the one before.
  async negotiate(id) {
    const channel = this.make('negotiated', { negotiated: true, id });
    const open = () => this.command(`open negotiated - 0 0 0 1 ${id}`);
    let answer = await open();
    for (let i = 0; i < 100 && answer.code !== 0; i++) {
      await sleep(0.05);
      answer = await open();
    }
    expectEqual(answer.code, 0, `the code of open of ${id}`);
    return channel.isOpen();
  }

  end() {
    this.peer?.close();
  }
}
