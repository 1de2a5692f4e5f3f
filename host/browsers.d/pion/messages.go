package main

import (
	"fmt"
	"strings"
	"time"
)

const bulkLength = 16384

func wordsOf(channel, count int) []message {
	words := []message{}
	for i := 0; i < count; i++ {
		words = append(words, text(fmt.Sprintf("channel %d, message %d", channel, i)))
	}
	return words
}

// Sends messages that differ, and finds each of them once.
func echoInAnyOrder(c *channel, sent []message) {
	missing := map[string]bool{}
	for _, m := range sent {
		missing[fmt.Sprint(m.isText, string(m.bytes))] = true
		c.send(m)
	}
	expectEqual(len(missing), len(sent), "the number of different messages")
	for range sent {
		m := c.next(time.Minute)
		key := fmt.Sprint(m.isText, string(m.bytes))
		if !missing[key] {
			fail("a message came twice, or was not sent")
		}
		delete(missing, key)
	}
}

func emptyMessages(c *connection) string {
	begun(c)
	made := c.create("", nil)
	made.echo(text(""), binary(0, 0), text("x"), binary(1, 0))
	for i := 0; i < 20; i++ {
		made.echo(text(""), binary(0, 0))
	}
	return ""
}

// Every length around one, two and three pieces of a message, by either side's payload size.
func lengths(c *connection) string {
	begun(c)
	made := c.create("lengths", nil)
	for _, part := range [][2]int{{1, 40}, {1100, 1240}, {2240, 2420}, {3400, 3560}, {16380, 16390}} {
		sent := []message{}
		for length := part[0]; length <= part[1]; length++ {
			if length%2 == 0 {
				sent = append(sent, binary(length, length))
			} else {
				sent = append(sent, text(textOf(length, length)))
			}
		}
		made.echo(sent...)
	}
	return ""
}

func longMessages(c *connection) string {
	begun(c)
	made := c.create("long", nil)
	made.echo(binary(65535, 1), text(textOf(65535, 2)))
	for i := 0; i < 8; i++ {
		made.echo(binary(60000+7*i, i))
	}
	return ""
}

// Its description has no a=max-message-size, and so allows 65,536 bytes (RFC 8841 section 6).
func longestMessages(c *connection) string {
	begun(c)
	if strings.Contains(c.peer.LocalDescription().SDP, "a=max-message-size") {
		fail("pion says how long messages may be")
	}
	c.create("longest", nil).echo(binary(65536, 1))
	return ""
}

func smallMessages(c *connection, isOrdered bool) string {
	begun(c)
	sent := []message{}
	for i := 0; i < 10000; i++ {
		sent = append(sent, text(fmt.Sprint("message ", i)))
	}
	made := c.create("small", kind{isUnordered: !isOrdered}.options())
	if !isOrdered {
		echoInAnyOrder(made, sent)
		return ""
	}
	for _, m := range sent {
		made.send(m)
	}
	for _, m := range sent {
		made.expect(m, time.Minute)
	}
	return ""
}

func unordered(c *connection) string {
	begun(c)
	sent := []message{}
	for i := 0; i < 500; i++ {
		sent = append(sent, binary(1+i*37%5000, i))
	}
	echoInAnyOrder(c.create("unordered", kind{isUnordered: true}.options()), sent)
	return ""
}

func bulkBothWays(c *connection) string {
	begun(c)
	made, began, sent := c.create("bulk", nil), time.Now(), make(chan error, 1)
	go func() { sent <- sendBulk(made) }()
	for i := 0; i < bulk; i++ {
		made.expect(binary(bulkLength, i), time.Minute)
	}
	check(<-sent)
	return fmt.Sprintf("%d messages of 16 KiB each way in %.1f s", bulk, time.Since(began).Seconds())
}

func sendBulk(c *channel) error {
	c.SetBufferedAmountLowThreshold(1 << 18)
	for i := 0; i < bulk; i++ {
		if c.BufferedAmount() > 1<<20 {
			select {
			case <-c.low:
			case <-time.After(time.Minute):
				return fmt.Errorf("OnBufferedAmountLow did not come, with %d bytes buffered", c.BufferedAmount())
			}
		}
		if err := c.Send(binary(bulkLength, i).bytes); err != nil {
			return err
		}
	}
	return nil
}

// Sends numbered messages, so slowly that none is dropped for want of room, and gives the numbers that came back.
func numbersOfEchoes(c *channel, count int) []int {
	waits := 500
	if isLossy {
		waits = 5
	}
	for i := 0; i < count; i++ {
		c.send(text(fmt.Sprint(i, " ", textOf(2000, i))))
		for wait := 0; i%10 == 9 && len(c.messages) <= i && wait < waits; wait++ {
			time.Sleep(10 * time.Millisecond)
		}
	}
	for before := -1; before != len(c.messages) && len(c.messages) < count; {
		before = len(c.messages)
		time.Sleep(3 * time.Second)
	}
	numbers := []int{}
	for len(c.messages) > 0 {
		var i int
		came := string((<-c.messages).bytes)
		_, err := fmt.Sscan(came, &i)
		check(err)
		expectEqual(came, fmt.Sprint(i, " ", textOf(2000, i)), "a message")
		numbers = append(numbers, i)
	}
	return numbers
}

// Without loss all come back, and with it most.
func unreliable(c *connection, k kind) string {
	const count = 300
	notes := []string{}
	begun(c)
	for _, k.isUnordered = range []bool{false, true} {
		made := c.create("unreliable", k.options())
		came := numbersOfEchoes(made, count)
		seen := map[int]bool{}
		for i, number := range came {
			if seen[number] || (!k.isUnordered && i > 0 && number < came[i-1]) {
				fail("message %d came twice, or in another order", number)
			}
			seen[number] = true
		}
		if len(came) < count && !isLossy || len(came) < count/2 {
			fail("only %d of %d came back, unordered: %v", len(came), count, k.isUnordered)
		}
		if isLossy && !k.isTimed && len(came) == count {
			fail("none was given up")
		}
		notes = append(notes, fmt.Sprintf("%d of %d", len(came), count))
		made.close()
	}
	return strings.Join(notes, ", ")
}
