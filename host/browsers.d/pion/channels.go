package main

import (
	"fmt"
	"time"

	"github.com/pion/webrtc"
)

const (
	fewRounds  = 10
	manyRounds = 100
)

// A case, by the names of cases.py. It gets a connection that was not begun yet, and may give a note for people.
type testCase func(c *connection) string

var cases = map[string]testCase{
	"channels-by-peer":    channelsByPeer,
	"channels-by-program": channelsByProgram,
	"names-by-peer":       namesByPeer,
	"names-by-program":    namesByProgram,
	"negotiated":          negotiated,
	"negotiated-again":    negotiatedAgain,
	"sent-behind-open":    sentBehindOpen,
	"before-connection":   openedBeforeConnection,
	"empty-messages":      emptyMessages,
	"lengths":             lengths,
	"long-messages":       longMessages,
	"longest-messages":    longestMessages,
	"small-messages":      func(c *connection) string { return smallMessages(c, true) },
	"small-unordered":     func(c *connection) string { return smallMessages(c, false) },
	"unordered":           unordered,
	"bulk":                bulkBothWays,
	"retransmit-limit-0":  func(c *connection) string { return unreliable(c, kind{value: number(0)}) },
	"lifetime":            func(c *connection) string { return unreliable(c, kind{isTimed: true, value: number(200)}) },
	"fifty-channels":      fiftyChannels,
	"channels-at-once":    channelsAtOnce,
	"thousand-channels":   func(c *connection) string { return manyByProgram(c, 1000) },
	"past-2047":           func(c *connection) string { return manyByProgram(c, 1030) },
	"reopened-by-peer":    reopenedAfterPeer,
	"reopened-by-program": reopenedAfterProgram,
	"reopened-by-both":    reopenedAfterBoth,
	"reconnection":        reconnection,
	"end-by-peer":         endByPeer,
	"end-in-order":        func(c *connection) string { return endByProgram(c, "shutdown") },
	"end-by-abort":        func(c *connection) string { return endByProgram(c, "abort enough") },
}

// What a channel is: `value` is nil if it is reliable, and else a lifetime or a limit of retransmissions.
type kind struct {
	isUnordered, isTimed bool
	value                *uint16
}

var kinds = []kind{
	{}, {isUnordered: true},
	{value: number(0)}, {isUnordered: true, value: number(0)},
	{value: number(3)}, {isUnordered: true, value: number(3)},
	{isTimed: true, value: number(500)}, {isUnordered: true, isTimed: true, value: number(500)},
}

func number(value uint16) *uint16 { return &value }

func (k kind) options() *webrtc.DataChannelInit {
	isOrdered := !k.isUnordered
	options := &webrtc.DataChannelInit{Ordered: &isOrdered}
	if k.isTimed {
		options.MaxPacketLifeTime = k.value
	} else {
		options.MaxRetransmits = k.value
	}
	return options
}

func (k kind) isReliable() bool { return k.value == nil }

// The words of the command "open" for the kind.
func (k kind) words() string {
	unordered, number, value := 0, 0, uint16(0)
	if k.isUnordered {
		unordered = 1
	}
	if k.value != nil {
		number, value = 1, *k.value
	}
	if k.isTimed {
		number = 2
	}
	return fmt.Sprintf("%d %d %d", unordered, number, value)
}

func shown(value *uint16) string {
	if value == nil {
		return "none"
	}
	return fmt.Sprint(*value)
}

func (k kind) expectOf(c *channel) {
	expected := k.options()
	expectEqual(c.Ordered(), *expected.Ordered, "ordered")
	expectEqual(shown(c.MaxRetransmits()), shown(expected.MaxRetransmits), "maxRetransmits")
	expectEqual(shown(c.MaxPacketLifeTime()), shown(expected.MaxPacketLifeTime), "maxPacketLifeTime")
}

// One at a time, since on an unordered channel they may come back in another order.
func echoEach(c *channel) {
	for _, m := range []message{text("hello"), text("Grüße, 世界 🎈"), binary(5, 1), binary(3000, 2), text("")} {
		c.echo(m)
	}
}

func begun(c *connection) { c.begin(func() {}) }

func channelsByPeer(c *connection) string {
	begun(c)
	for _, k := range kinds {
		made := c.create("kind", k.options())
		if !isLossy || k.isReliable() {
			echoEach(made)
		}
		c.expectListed(made)
		made.close()
	}
	return ""
}

func channelsByProgram(c *connection) string {
	begun(c)
	for _, k := range kinds {
		announced := c.openedByProgram("kind - " + k.words())
		k.expectOf(announced)
		if !isLossy || k.isReliable() {
			echoEach(announced)
		}
		announced.close()
	}
	return ""
}

func namesByPeer(c *connection) string {
	begun(c)
	protocol := "prötokoll"
	made := c.create("Größe ✓ 🎈", &webrtc.DataChannelInit{Protocol: &protocol})
	c.expectListed(made)
	made.echo(text("hello"))
	return ""
}

func namesByProgram(c *connection) string {
	begun(c)
	announced := c.openedByProgram("Größe✓🎈 prötokoll 0 0 0")
	expectEqual(announced.Label(), "Größe✓🎈", "the label")
	expectEqual(announced.Protocol(), "prötokoll", "the protocol")
	announced.echo(text("hello"))
	return ""
}

func negotiated(c *connection) string {
	begun(c)
	for _, id := range []uint16{101, 250, 1000, 65534} {
		made := c.negotiate(id)
		echoEach(made)
		made.close()
	}
	return ""
}

func negotiatedAgain(c *connection) string {
	begun(c)
	for round := 0; round < fewRounds; round++ {
		made := c.negotiate(40)
		made.echo(text(fmt.Sprint("round ", round)))
		if round%2 == 0 {
			made.close()
		} else {
			c.closeByProgram(made)
		}
	}
	return ""
}

// The first messages of a channel follow its OPEN before the program can have answered that.
func sentBehindOpen(c *connection) string {
	begun(c)
	for i := 0; i < 50; i++ {
		sent := wordsOf(i, 20)
		made := c.create("behind", kind{isUnordered: i%2 == 1}.options())
		if i%2 == 0 {
			made.echo(sent...)
		} else {
			echoInAnyOrder(made, sent)
		}
	}
	return ""
}

func openedBeforeConnection(c *connection) string {
	made := []*channel{}
	c.begin(func() {
		for i, k := range kinds {
			made = append(made, c.make(fmt.Sprint("before ", i), k.options()))
		}
	})
	for i, k := range kinds {
		made[i].isOpen()
		if !isLossy || k.isReliable() {
			echoEach(made[i])
		}
		c.expectListed(made[i])
	}
	return ""
}

func fiftyChannels(c *connection) string {
	begun(c)
	for round := 0; round < 2; round++ {
		made := []*channel{}
		for i := 0; i < 50; i++ {
			made = append(made, c.make(fmt.Sprint("channel ", i), nil))
		}
		echoOnAll(made)
		for _, one := range made {
			check(one.Close())
		}
		for _, one := range made {
			one.isClosed()
		}
	}
	announced := []*channel{}
	for i := 0; i < 50; i++ {
		announced = append(announced, c.openedByProgram(fmt.Sprintf("channel%d - 0 0 0", i)))
	}
	echoOnAll(announced)
	for _, one := range announced {
		c.closeByProgram(one)
	}
	return ""
}

// Sends on all channels before it takes anything from one.
func echoOnAll(channels []*channel) {
	for i, one := range channels {
		one.isOpen()
		for _, m := range wordsOf(i, 10) {
			one.send(m)
		}
	}
	for i, one := range channels {
		for _, m := range wordsOf(i, 10) {
			one.expect(m, limit)
		}
	}
}

func openedAtOnceByProgram(c *connection, count int) []*channel {
	identifiers, opened := map[string]int{}, []*channel{}
	for i := 0; i < count; i++ {
		c.control.send(text(fmt.Sprintf("open channel%d - 0 0 0 0 0", i)))
	}
	for i := 0; i < count; i++ {
		told := c.answer("open")
		expectEqual(told.Code, 0, "the code of open")
		identifiers[fmt.Sprint("channel", i)] = told.ID
	}
	for i := 0; i < count; i++ {
		announced := c.nextAnnounced(fmt.Sprintf("the announcement %d of %d", i, count))
		expectEqual(int(*announced.ID()), identifiers[announced.Label()], "the identifier of "+announced.Label())
		delete(identifiers, announced.Label())
		opened = append(opened, announced)
	}
	return opened
}

func channelsAtOnce(c *connection) string {
	begun(c)
	made := []*channel{}
	for i := 0; i < 200; i++ {
		made = append(made, c.make(fmt.Sprint("channel ", i), nil))
	}
	echoOnAll(made)
	echoOnAll(openedAtOnceByProgram(c, 100))
	return ""
}

func manyByProgram(c *connection, count int) string {
	begun(c)
	opened := openedAtOnceByProgram(c, count)
	opened[len(opened)-1].echo(text("hello"))
	return ""
}

// Opens a channel, uses it and ends it, and again at once, so that a peer may take the same identifier.
func reopened(c *connection, rounds int, end func(made *channel)) string {
	begun(c)
	identifiers := map[uint16]bool{}
	for round := 0; round < rounds; round++ {
		made := c.create("again", nil)
		identifiers[*made.ID()] = true
		made.echo(text(fmt.Sprint("round ", round)))
		end(made)
	}
	return fmt.Sprintf("%d identifiers in %d rounds", len(identifiers), rounds)
}

func reopenedAfterPeer(c *connection) string { return reopened(c, fewRounds, (*channel).close) }

func reopenedAfterProgram(c *connection) string { return reopened(c, fewRounds, c.closeByProgram) }

func reopenedAfterBoth(c *connection) string {
	return reopened(c, manyRounds, func(made *channel) {
		c.control.send(text(fmt.Sprintf("close %d", *made.ID())))
		made.close()
		// 14 and 43: there is no such stream or channel any more
		if code := c.answer("close").Code; code != 0 && code != 14 && code != 43 {
			fail("the code of close is %d", code)
		}
	})
}

// Without loss the end of the connection before is told to the peer; with it the ABORT may be lost.
func reconnection(c *connection) string {
	begun(c)
	before := c
	defer func() { before.end() }()
	for round := 0; round < 5; round++ {
		one := before.create("one", nil)
		one.echo(text(fmt.Sprint("round ", round)))
		next := begin()
		if !isLossy {
			one.isClosed()
		}
		before.end()
		before = next
		before.create("next", nil).echo(text(fmt.Sprint("after round ", round)))
	}
	return ""
}

// The program is to notice the end before the next case makes another offer.
func endByPeer(c *connection) string {
	begun(c)
	c.create("one", nil).echo(text("hello"))
	c.end()
	time.Sleep(time.Second)
	return ""
}

func endByProgram(c *connection, words string) string {
	begun(c)
	made := c.create("one", nil)
	made.echo(text("hello"))
	c.control.send(text(words))
	made.isClosed()
	c.control.isClosed()
	return ""
}
