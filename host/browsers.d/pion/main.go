// A peer by pion: runs the cases that its second argument names, each over a connection of its own, and tells each
// result to the server of host/browsers, whose address is the first argument.
package main

import (
	"bytes"
	"encoding/json"
	"fmt"
	"io"
	"net/http"
	"net/url"
	"os"
	"strings"
	"sync"
	"time"

	"github.com/pion/webrtc"
)

const (
	limit        = 20 * time.Second // of one step of a case
	connectLimit = 40 * time.Second
)

var (
	base    string
	isLossy bool
	bulk    int
	noise   = pseudoRandomBytes(1 << 19)
)

func pseudoRandomBytes(count int) []byte {
	bytes, state := make([]byte, count), uint32(1)
	for i := range bytes {
		state = state*1664525 + 1013904223
		bytes[i] = byte(state >> 24)
	}
	return bytes
}

type message struct {
	isText bool
	bytes  []byte
}

func text(words string) message { return message{true, []byte(words)} }

// Content that differs from message to message: pieces of one sequence of pseudo-random bytes.
func binary(length, seed int) message {
	start := seed * 251 % 65536
	return message{false, noise[start : start+length]}
}

func textOf(length, seed int) string {
	letters := append([]byte{}, binary(length, seed).bytes...)
	for i := range letters {
		letters[i] = 33 + letters[i]%94
	}
	return string(letters)
}

// A failure ends its case, whose name is known where it is caught.
func fail(format string, values ...interface{}) { panic(fmt.Errorf(format, values...)) }

func check(err error) {
	if err != nil {
		panic(err)
	}
}

func expectEqual(value, expected interface{}, what string) {
	if value != expected {
		fail("%s is %v and not %v", what, value, expected)
	}
}

func await(event <-chan struct{}, what string) {
	select {
	case <-event:
	case <-time.After(limit):
		fail("%s did not come within %v", what, limit)
	}
}

// A channel whose messages wait until a case asks for them.
type channel struct {
	*webrtc.DataChannel
	messages chan message
	opened   chan struct{}
	closed   chan struct{}
	low      chan struct{}
}

func wrap(inner *webrtc.DataChannel) *channel {
	c := &channel{inner, make(chan message, 20000), make(chan struct{}), make(chan struct{}), make(chan struct{}, 1)}
	inner.OnMessage(func(m webrtc.DataChannelMessage) { c.messages <- message{m.IsString, m.Data} })
	inner.OnOpen(func() { close(c.opened) })
	once := sync.Once{}
	inner.OnClose(func() { once.Do(func() { close(c.closed) }) })
	inner.OnBufferedAmountLow(func() {
		select {
		case c.low <- struct{}{}:
		default:
		}
	})
	return c
}

func (c *channel) name() string { return fmt.Sprintf("'%s' (%s)", c.Label(), c.ReadyState()) }

func (c *channel) send(m message) {
	if m.isText {
		check(c.SendText(string(m.bytes)))
	} else {
		check(c.Send(m.bytes))
	}
}

func (c *channel) next(within time.Duration) message {
	select {
	case m := <-c.messages:
		return m
	case <-time.After(within):
		fail("a message on %s did not come within %v", c.name(), within)
		return message{}
	}
}

func (c *channel) expect(expected message, within time.Duration) {
	came := c.next(within)
	if came.isText != expected.isText || !bytes.Equal(came.bytes, expected.bytes) {
		fail("on %s came %d bytes (text: %v), and not %d (text: %v)", c.name(), len(came.bytes), came.isText,
			len(expected.bytes), expected.isText)
	}
}

func (c *channel) echo(messages ...message) {
	for _, m := range messages {
		c.send(m)
	}
	for _, m := range messages {
		c.expect(m, limit)
	}
}

func (c *channel) isOpen() *channel {
	await(c.opened, "the opening of "+c.name())
	return c
}

func (c *channel) isClosed() { await(c.closed, "the end of "+c.name()) }

func (c *channel) close() {
	check(c.Close())
	c.isClosed()
}

type connection struct {
	peer      *webrtc.PeerConnection
	control   *channel
	announced chan *channel
}

// Connects over the loopback interface. `before` may open channels on the connection before it is offered.
func (c *connection) begin(before func()) *connection {
	settings := webrtc.SettingEngine{}
	settings.SetIncludeLoopbackCandidate(true)
	settings.SetNetworkTypes([]webrtc.NetworkType{webrtc.NetworkTypeUDP4})
	peer, err := webrtc.NewAPI(webrtc.WithSettingEngine(settings)).NewPeerConnection(webrtc.Configuration{})
	check(err)
	c.peer, c.announced = peer, make(chan *channel, 2000)
	peer.OnDataChannel(func(inner *webrtc.DataChannel) { c.announced <- wrap(inner) })
	c.control = c.make("control", nil)
	before()
	offer, err := peer.CreateOffer(nil)
	check(err)
	check(peer.SetLocalDescription(offer))
	reply, err := http.Post(base+"offer", "application/sdp", strings.NewReader(peer.LocalDescription().SDP))
	check(err)
	defer reply.Body.Close()
	answer, err := io.ReadAll(reply.Body)
	check(err)
	expectEqual(reply.StatusCode, 200, "the status of the answer")
	check(peer.SetRemoteDescription(webrtc.SessionDescription{Type: webrtc.SDPTypeAnswer, SDP: string(answer)}))
	select {
	case <-c.control.opened:
	case <-time.After(connectLimit):
		fail("the connection did not come within %v", connectLimit)
	}
	return c
}

func begin() *connection { return new(connection).begin(func() {}) }

func (c *connection) state() string {
	if c.peer == nil {
		return "no connection"
	}
	return fmt.Sprintf("ICE %v, connection %v, SCTP %v", c.peer.ICEConnectionState(), c.peer.ConnectionState(),
		c.peer.SCTP().State())
}

func (c *connection) end() {
	if c.peer != nil {
		c.peer.Close()
	}
}

// What the program answers to commands; each has some of the fields.
type answer struct {
	Code     int
	ID       int
	Channels []struct {
		ID    int
		Label string
		State string
	}
}

func (c *connection) answer(what string) (told answer) {
	select {
	case m := <-c.control.messages:
		check(json.Unmarshal(m.bytes, &told))
	case <-time.After(limit):
		fail("the answer to '%s' did not come within %v", what, limit)
	}
	return told
}

func (c *connection) command(words string) answer {
	c.control.send(text(words))
	return c.answer(words)
}

func (c *connection) make(label string, options *webrtc.DataChannelInit) *channel {
	inner, err := c.peer.CreateDataChannel(label, options)
	check(err)
	return wrap(inner)
}

// A channel that was made here, once it is open.
func (c *connection) create(label string, options *webrtc.DataChannelInit) *channel {
	return c.make(label, options).isOpen()
}

func (c *connection) nextAnnounced(what string) *channel {
	select {
	case announced := <-c.announced:
		return announced.isOpen()
	case <-time.After(limit):
		fail("%s did not come within %v", what, limit)
		return nil
	}
}

// Has the program open a channel, and gives this side of it, which has to have the same identifier.
func (c *connection) openedByProgram(words string) *channel {
	told := c.command("open " + words + " 0 0")
	expectEqual(told.Code, 0, "the code of open")
	announced := c.nextAnnounced("the channel of the program")
	expectEqual(int(*announced.ID()), told.ID, "the identifier")
	return announced
}

func (c *connection) closeByProgram(closing *channel) {
	expectEqual(c.command(fmt.Sprintf("close %d", *closing.ID())).Code, 0, "the code of close")
	closing.isClosed()
}

// Opens the channel at both sides. The program refuses its identifier until it was told the end of the one before.
func (c *connection) negotiate(id uint16) *channel {
	isNegotiated := true
	made := c.make("negotiated", &webrtc.DataChannelInit{Negotiated: &isNegotiated, ID: &id})
	open := fmt.Sprintf("open negotiated - 0 0 0 1 %d", id)
	told := c.command(open)
	for i := 0; i < 100 && told.Code != 0; i++ {
		time.Sleep(50 * time.Millisecond)
		told = c.command(open)
	}
	expectEqual(told.Code, 0, "the code of open")
	return made.isOpen()
}

// A channel may be open here before the program has its OPEN.
func (c *connection) expectListed(open *channel) {
	for i := 0; i < 100; i++ {
		for _, listed := range c.command("stats").Channels {
			if listed.ID == int(*open.ID()) && listed.State == "open" {
				expectEqual(listed.Label, open.Label(), "the label that the program lists")
				return
			}
		}
		time.Sleep(100 * time.Millisecond)
	}
	fail("the program does not list %s", open.name())
}

type result struct {
	Case   string `json:"case"`
	Passed bool   `json:"passed"`
	Note   string `json:"note"`
}

func run(name string) (told result) {
	c := &connection{}
	defer c.end()
	defer func() {
		if err := recover(); err != nil {
			told = result{name, false, fmt.Sprintf("%v; %s", err, c.state())}
		}
	}()
	return result{name, true, cases[name](c)}
}

func main() {
	base = os.Args[1]
	query, err := url.ParseQuery(os.Args[2])
	check(err)
	isLossy = query.Get("loss") != "0"
	_, err = fmt.Sscan(query.Get("bulk"), &bulk)
	check(err)
	for _, name := range strings.Split(query.Get("cases"), ",") {
		body, err := json.Marshal(run(name))
		check(err)
		reply, err := http.Post(base+"result", "application/json", bytes.NewReader(body))
		check(err)
		check(reply.Body.Close())
	}
}
