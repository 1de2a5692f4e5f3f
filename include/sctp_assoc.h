/*
 * sctp_assoc: the association layer of SCTP (RFC 4960) for C and C++.
 *
 * One association lies in one slot. Datagrams, moments and calls of the application go in; datagrams, events and the
 * next moment come out. No call reads a clock, a socket or a random source, blocks, calls back, or keeps anything
 * outside of the slot, but for two that nobody has to make: sctp_assoc_random_identity asks the system for random
 * bytes, and sctp_assoc_set_heap keeps, for the whole process, the functions that are called for memory from then on.
 * `./library` builds the archive to link with; docs/GUIDE.md shows how to use it.
 *
 * One turn of the loop, at the moment `now`:
 *   1. If sctp_assoc_poll_timeout gives a moment that isn't after now, call sctp_assoc_handle_timeout.
 *   2. If a datagram came, call sctp_assoc_handle_datagram.
 *   3. Take events and poll for datagrams until neither brings anything:
 *      - Call sctp_assoc_poll_event until it answers SCTP_ASSOC_NOTHING. At SCTP_ASSOC_EVENT_READABLE call
 *        sctp_assoc_read until it answers SCTP_ASSOC_NOTHING, or the stream is gone. At SCTP_ASSOC_EVENT_OPENED call
 *        sctp_assoc_accept_stream.
 *      - Call sctp_assoc_poll_transmit until it answers SCTP_ASSOC_NOTHING, and send each datagram.
 *      A poll for datagrams can queue events, and what you write or read at an event leaves datagrams. Do this step
 *      also after each datagram that you handed in and after each write and read, since no timer runs for what waits
 *      to go out.
 *   4. Sleep until the moment of sctp_assoc_poll_timeout, or until a datagram comes.
 *
 * To end, call sctp_assoc_shutdown and go on with the loop until sctp_assoc_is_drained, and for some seconds behind it,
 * so that a peer is answered that missed the last datagram; or, at once, sctp_assoc_abort, which tells the peer why, or
 * sctp_assoc_close, which tells it nothing.
 *
 * Each call may be made in any state, in any order and at any moment. What it can't do it refuses by a code. Beyond
 * that C owes this:
 * - A slot begins with all its bytes 0 and is changed by these calls alone. It isn't copied while it holds an
 *   association (moving it is fine). One call at a time; it may go from one thread to another between calls.
 * - No pointer is NULL, except for bytes or identifiers of which there are 0, what sctp_assoc_free and _set_heap get,
 *   and the watch of sctp_assoc_get_metrics. What a call writes to doesn't overlap anything else that it gets, and
 *   needs no value before, but for a watch (sctp_assoc_watch).
 * - A `bool` is 0 or 1. Nothing here is called from a signal handler, or from the child of a fork of a process with
 *   threads.
 * - The library takes memory by malloc and realloc and gives it back by free. A program can have it call other
 *   functions in their place: see the end of this header, and what those owe.
 *
 * sctp_assoc_code_name gives the name of a code to print, and four calls beside it those of fates, events, reasons and
 * ends.
 *
 * Moments (`now`) are nanoseconds from one that the program chooses. Lengths and sizes are bytes. Numbers are in the
 * host's byte order. Bytes that go in are copied, and no pointer is kept after a call but those in a heap.
 */
#ifndef SCTP_ASSOC_H
#define SCTP_ASSOC_H

#include <stdbool.h>
#include <stddef.h>
#include <stdint.h>

#ifdef __cplusplus
extern "C" {
#endif

/* ---- The release ---- */

#define SCTP_ASSOC_VERSION_MAJOR 0
#define SCTP_ASSOC_VERSION_MINOR 2
#define SCTP_ASSOC_VERSION_PATCH 0
/* 10,000 times the first number, 100 times the second, and the third. What is declared here stays as long as the first
 * number does; as long as that is 0, it stays while the second does. */
#define SCTP_ASSOC_VERSION                                                                                             \
    (10000 * SCTP_ASSOC_VERSION_MAJOR + 100 * SCTP_ASSOC_VERSION_MINOR + SCTP_ASSOC_VERSION_PATCH)

/* The number of the archive, to compare with the header's. */
uint32_t sctp_assoc_version(void);

/* ---- The slot ---- */

/* Room for one association, 16 bytes. All bytes 0 is the empty slot. Don't touch its fields. */
typedef struct sctp_assoc {
    void *at;
    bool live;
} sctp_assoc;

/* sctp_assoc slot = SCTP_ASSOC_EMPTY; */
#define SCTP_ASSOC_EMPTY {0, 0}

/* ---- Codes ----
 *
 * A call of this type answers one of these. What it gives is written if it answers SCTP_ASSOC_DONE, and a length or a
 * count also at SCTP_ASSOC_NO_ROOM. At every other code what the pointers lead to stays as it was.
 */
typedef uint32_t sctp_assoc_code;

#define SCTP_ASSOC_DONE 0
/* The slot is empty. Nothing changed. */
#define SCTP_ASSOC_EMPTY_SLOT 1
/* Memory was refused. What that leaves:
 *   sctp_assoc_handle_datagram               all is as before, or the association has failed
 *   sctp_assoc_handle_timeout                the association has failed
 *   sctp_assoc_poll_transmit                 the association has failed, and what was due is lost
 *   sctp_assoc_abort                         nothing changed, or the association has failed
 *   sctp_assoc_close, _stop, _close_stream   the association has failed
 *   sctp_assoc_read, _next_length            the message stays, or the association has failed
 *   all other calls                          nothing changed
 * A watched call leaves what the call leaves that it makes. sctp_assoc_is_failed tells whether the association has
 * failed. Then it is over, and each later call that has the code SCTP_ASSOC_FAILED answers that. */
#define SCTP_ASSOC_NO_MEMORY 2
/* There is none: no datagram is due, no event waits, no message is ready, no stream is to be accepted, or no timer
 * runs. */
#define SCTP_ASSOC_NOTHING 3
/* The buffer is too short. What is next stays, and `length` says how long it is, or `count` how many there are. */
#define SCTP_ASSOC_NO_ROOM 4

/* Refusals. Nothing changed. A stream that SCTP_ASSOC_RESET_PENDING is about can be opened and written again once
 * SCTP_ASSOC_EVENT_FINISHED and SCTP_ASSOC_EVENT_RESET_COMPLETE told its end. Where the peer reset one of which nothing
 * ever came, nothing tells that: try again. */
#define SCTP_ASSOC_BAD_PAYLOAD_SIZE 6       /* max_payload_size isn't in 1 to 65,519 */
#define SCTP_ASSOC_BAD_INITIAL_TSN 7        /* the initial TSN is 0 */
#define SCTP_ASSOC_BAD_TOKEN 8              /* a token has a tag 0, a number of streams 0 or a window below 1500 */
#define SCTP_ASSOC_FAILED 10                /* an earlier call found no memory in its middle; the association is over */
#define SCTP_ASSOC_STREAM_EXISTS 11         /* this side or the peer opened the stream already */
#define SCTP_ASSOC_RESET_PENDING 12         /* a reset of the stream is open or failed, or its rest is to be read */
#define SCTP_ASSOC_NO_STREAM_LEFT 13        /* 2^64 streams were opened; none can be any more */
#define SCTP_ASSOC_NO_STREAM 14             /* there is no such stream */
#define SCTP_ASSOC_SHUTDOWN_NOT_ESTABLISHED 15 /* a shutdown begins in Established alone (RFC 4960 section 9.2) */
#define SCTP_ASSOC_NOT_ESTABLISHED 16       /* messages and HEARTBEATs are for Established alone (RFC 4960 section 4) */
#define SCTP_ASSOC_CANNOT_RESET 17          /* the reset of a stream is asked for in Established alone */
#define SCTP_ASSOC_STREAM_CLOSED 26         /* this half of the stream is closed */
#define SCTP_ASSOC_MESSAGE_TOO_LONG 27      /* longer than max_send_message_size; or a reason of over 65,527 bytes */
#define SCTP_ASSOC_EMPTY_MESSAGE 28         /* a message has one byte at least */
#define SCTP_ASSOC_NO_RANDOM 60             /* the system gives no random bytes */
#define SCTP_ASSOC_BAD_INIT 61              /* the bytes are no INIT chunk, or end within a parameter of it */
#define SCTP_ASSOC_BAD_TIMEOUT 62           /* rto_initial_ms, rto_min_ms or rto_max_ms is 0 */
#define SCTP_ASSOC_BAD_PROFILE 63           /* profile is neither SCTP_ASSOC_PROFILE_RFC nor _PORT */
#define SCTP_ASSOC_BAD_PORT 64              /* local_port or remote_port is 0 */
#define SCTP_ASSOC_BAD_STREAMS 65           /* max_num_outbound_streams or max_num_inbound_streams is 0 */
#define SCTP_ASSOC_BAD_WINDOW 66            /* max_receive_buffer_size is below 1500 */
#define SCTP_ASSOC_BAD_TAG 67               /* the verification tag is 0 */
#define SCTP_ASSOC_BAD_PAYLOAD_TYPE 68      /* it has no name here, and would go out as 0 */
#define SCTP_ASSOC_BAD_RELIABILITY 69       /* it has no name here */

/* ---- Configuration ---- */

/* Stands for no limit in max_init_retransmits and max_data_retransmits. */
#define SCTP_ASSOC_NO_LIMIT SIZE_MAX

/* Which rules an association keeps where docs/CONFORMANCE.md has two. Each side has its own, of which the peer is told
 * nothing. */
#define SCTP_ASSOC_PROFILE_RFC 0  /* rules that the RFCs ask for or leave open; the default */
#define SCTP_ASSOC_PROFILE_PORT 1 /* those of the Rust crate sctp-proto 0.10.8, which this library is a port of */

typedef struct sctp_assoc_config {
    uint32_t max_receive_buffer_size;  /* bytes, 1500 or more; the window that is offered */
    uint32_t max_send_message_size;    /* bytes; a longer message is refused */
    uint32_t max_receive_message_size; /* bytes; a longer message closes the association */
    uint16_t max_num_outbound_streams; /* offered, 1 to 65,535 */
    uint16_t max_num_inbound_streams;  /* offered, 1 to 65,535; a peer that uses more streams is not refused */
    uint16_t local_port;               /* SCTP port, not 0; a server takes both from the INIT */
    uint16_t remote_port;
    uint32_t profile;                  /* SCTP_ASSOC_PROFILE_.. */
    uint64_t rto_initial_ms;           /* retransmission timeouts, ms, none of them 0 (RFC 4960 section 6.3.1) */
    uint64_t rto_min_ms;
    uint64_t rto_max_ms;
    size_t max_init_retransmits;       /* how often INIT and COOKIE ECHO go out again, and a request to reset streams
                                        * until SCTP_ASSOC_EVENT_RESET_FAILED; by SCTP_ASSOC_PROFILE_RFC SHUTDOWN ACK,
                                        * too, until the association ends; SCTP_ASSOC_NO_LIMIT */
    size_t max_data_retransmits;       /* timeouts in a row in which DATA is sent again. At the next one the association
                                        * ends by SCTP_ASSOC_PROFILE_RFC, where a SACK with a window of 0 ends the row,
                                        * too. By SCTP_ASSOC_PROFILE_PORT DATA is no longer sent, and nothing tells of
                                        * that, so take SCTP_ASSOC_NO_LIMIT there, and bound the wait for an
                                        * acknowledgement */
} sctp_assoc_config;

/* Writes the defaults: buffer 1,048,576, messages 65,536, streams 65,535, ports 5000, the profile of the RFCs, timeouts
 * 500, 400 and 60,000, 8 retransmissions of INIT, 10 of DATA. RFC 4960 section 15 has timeouts of 3000 and 1000. With
 * SCTP_ASSOC_PROFILE_PORT take SCTP_ASSOC_NO_LIMIT for DATA. Answers SCTP_ASSOC_DONE. */
sctp_assoc_code sctp_assoc_default_config(sctp_assoc_config *config);

/* What names one side. Take all three from a random source that nobody can guess. */
typedef struct sctp_assoc_identity {
    uint32_t tag;         /* this side's verification tag (RFC 4960 section 8.5), not 0 */
    uint32_t initial_tsn; /* the first TSN, not 0 */
    uint8_t cookie[32];   /* a server's State Cookie (section 5.1.3) */
} sctp_assoc_identity;

/* Draws an identity from the system's random source, by getentropy or, where the system lacks that, from /dev/urandom.
 * It waits if the system has just started and has no random bytes yet. This call alone asks the system for anything but
 * memory. Codes: DONE, NO_RANDOM. */
sctp_assoc_code sctp_assoc_random_identity(sctp_assoc_identity *identity);

/* What two sides that join without a handshake exchange: the values of the INIT chunk that each would send. */
typedef struct sctp_assoc_token {
    uint32_t tag;
    uint32_t initial_tsn;
    uint32_t window;               /* bytes */
    uint16_t num_outbound_streams;
    uint16_t num_inbound_streams;
    bool forward_tsn;              /* its Supported Extensions list FORWARD TSN (RFC 3758 section 3.1): if the
                                    * peer's do, messages may be given up */
} sctp_assoc_token;

/* Writes the token of a side with this configuration. Answers SCTP_ASSOC_DONE. */
sctp_assoc_code sctp_assoc_make_token(const sctp_assoc_config *config, uint32_t tag, uint32_t initial_tsn,
                                      sctp_assoc_token *token);

/* Writes the INIT chunk with the values of a token (RFC 4960 section 3.3.2) to the front of the buffer, as a client
 * would send it: its Supported Extensions list RE-CONFIG and, if the token has it, FORWARD TSN. `length` says how long
 * it is, with its padding. Codes: DONE, NO_ROOM, BAD_TOKEN. */
#define SCTP_ASSOC_MAX_INIT 28 /* none is longer, in bytes */
sctp_assoc_code sctp_assoc_token_to_init(const sctp_assoc_token *token, uint8_t *buffer, size_t room, size_t *length);

/* Reads a token out of the INIT chunk of a peer, with its padding or without. Of its parameters the Supported
 * Extensions count alone; one that RFC 4960 doesn't know is passed over, or ends the reading, as its type says (section
 * 3.2.1). Codes, refusals in this order: DONE, BAD_INIT, BAD_TOKEN. */
sctp_assoc_code sctp_assoc_token_from_init(const uint8_t *init, size_t length, sctp_assoc_token *token);

/* ---- Begin and end ----
 *
 * Each of the first three makes an association and puts it into the slot; one that the slot held before is freed then.
 * `max_payload_size` is the greatest payload of one DATA chunk, 1 to 65,519 (at most 1204 for UDP over links of 1280
 * bytes and IPv6, less below DTLS; UDP carries no more than 65,479). A datagram with DATA has up to 28 bytes more, and
 * up to 3 besides if it is no multiple of 4. Some other datagrams get longer: see sctp_assoc_poll_transmit.
 *
 * Codes: DONE, NO_MEMORY, and refusals in this order: BAD_PROFILE, BAD_PORT, BAD_STREAMS, BAD_WINDOW, BAD_TAG for the
 * first two, BAD_TIMEOUT, BAD_PAYLOAD_SIZE, and BAD_INITIAL_TSN or BAD_TOKEN. At all but DONE the slot stays as it was.
 */

/* A client, whose INIT waits for sctp_assoc_poll_transmit; its timer runs from `now` (RFC 4960 section 5.1). */
sctp_assoc_code sctp_assoc_client(sctp_assoc *slot, const sctp_assoc_config *config, uint32_t max_payload_size,
                                  const sctp_assoc_identity *identity, uint64_t now);

/* A server, which waits for an INIT. */
sctp_assoc_code sctp_assoc_server(sctp_assoc *slot, const sctp_assoc_config *config, uint32_t max_payload_size,
                                  const sctp_assoc_identity *identity, uint64_t now);

/* One that is established at once, by both sides' tokens; SCTP_ASSOC_EVENT_CONNECTED waits. */
sctp_assoc_code sctp_assoc_joined(sctp_assoc *slot, const sctp_assoc_config *config, uint32_t max_payload_size,
                                  const sctp_assoc_token *local, const sctp_assoc_token *remote);

/* Frees the association and all that waits in it, and leaves the slot empty. The peer is told nothing. NULL counts as
 * an empty slot. Codes: DONE, EMPTY_SLOT. */
sctp_assoc_code sctp_assoc_free(sctp_assoc *slot);

/* Begins to end the association gracefully (RFC 4960 section 9.2), and returns at once. From now on nothing is accepted
 * from the application: writes and resets of streams are refused by NOT_ESTABLISHED and CANNOT_RESET. What was accepted
 * is still sent, and messages of the peer still come. Go on with the loop: once all messages of both sides are
 * acknowledged, the association closes as by sctp_assoc_close, here and at the peer, and SCTP_ASSOC_EVENT_LOST tells it
 * with the reason SCTP_ASSOC_REASON_CLOSED. Read what comes at once, since unread messages are gone then. The loop is
 * over once sctp_assoc_is_drained says so and sctp_assoc_poll_transmit answers NOTHING.
 *
 * A peer that is gone is waited for without a limit, as it may have much to send. A side that closed may answer nothing
 * any more, even if the last datagram that it sent is lost. So wait for a bounded time, and then call sctp_assoc_close.
 *
 * Codes: DONE, EMPTY_SLOT, FAILED, SHUTDOWN_NOT_ESTABLISHED (also if either side has begun a shutdown). */
sctp_assoc_code sctp_assoc_shutdown(sctp_assoc *slot);

/* Closes the association at once; nothing is told to the peer, and each stream ends. Datagrams and messages that wait
 * at the slot can still be taken; SCTP_ASSOC_EVENT_LOST comes after the events that wait. Codes: DONE, EMPTY_SLOT,
 * FAILED, NO_MEMORY (the association has failed). */
sctp_assoc_code sctp_assoc_close(sctp_assoc *slot);

/* Closes the association at once, as sctp_assoc_close does, and tells the peer by an ABORT (RFC 4960 section 9.1): it
 * waits for sctp_assoc_poll_transmit, behind the datagrams that wait already. `reason` stands in its cause
 * User-Initiated Abort (section 3.3.10.12): text for people, 0 to 65,527 bytes, and best so short that the path takes
 * it. A closed association stays as it is, and before the peer has answered the handshake nobody is told. The ABORT
 * isn't repeated: if it is lost, the peer learns nothing of the end. Codes: DONE, EMPTY_SLOT, FAILED, MESSAGE_TOO_LONG,
 * NO_MEMORY (nothing changed, or the association has failed). */
sctp_assoc_code sctp_assoc_abort(sctp_assoc *slot, const uint8_t *reason, size_t length);

/* ---- Datagrams and moments ---- */

/* What became of a datagram. */
#define SCTP_ASSOC_TAKEN 0         /* its tag is accepted, and it went to the association */
#define SCTP_ASSOC_NO_PACKET 1     /* no SCTP packet, or a wrong checksum; nothing changed */
#define SCTP_ASSOC_OTHER_TAG 2     /* a verification tag that RFC 4960 section 8.5 refuses; nothing changed */
#define SCTP_ASSOC_REPEATED_INIT 3 /* an INIT after the handshake that has the peer's initiate tag, or is too short to
                                    * have one; nothing changed */
#define SCTP_ASSOC_OTHER_INIT 4    /* an INIT after the handshake with another initiate tag; nothing changed */

/* Takes in one datagram that came at `now`: an SCTP packet from its common header on. `fate` says what became of it.
 * Behind the end nothing counts any more, but a SHUTDOWN ACK is answered (by SCTP_ASSOC_PROFILE_RFC), as the last
 * datagram of this side may have been lost: sctp_assoc_poll_transmit gives the answer.
 *
 * At OTHER_INIT the peer was started anew, or somebody else asks from its address (RFC 4960 section 5.2.2). The
 * association doesn't begin anew; a server in a slot beside it can answer. Hand that INIT to it, and then all that this
 * association leaves by OTHER_INIT or OTHER_TAG. Only SCTP_ASSOC_EVENT_CONNECTED of that server shows that the peer
 * took part in the handshake, since an INIT can be forged: free this association then, and not before.
 *
 * Codes: DONE, EMPTY_SLOT, FAILED, NO_MEMORY (all is as before, or the association has failed). */
sctp_assoc_code sctp_assoc_handle_datagram(sctp_assoc *slot, uint64_t now, const uint8_t *datagram, size_t length,
                                           uint32_t *fate);

/* Copies the next datagram that is due at `now` to the front of the buffer; `length` says how long it is. Codes: DONE,
 * EMPTY_SLOT, NOTHING, NO_ROOM, FAILED, NO_MEMORY (the association has failed, and what was due is lost).
 *
 * At NO_ROOM the datagram stays, and those after it wait: come again with `length` bytes of room, or have
 * SCTP_ASSOC_MAX_DATAGRAM from the start, which is always enough. How long datagrams get, in bytes:
 *   DATA                        28 and the payload, at most max_payload_size (rounded up to 4)
 *   COOKIE ECHO                 16 and the State Cookie that the peer's INIT ACK had (rounded up to 4)
 *   SACK                        28 and 4 for each gap in what came; with more than 16,379 gaps none is sent
 *   RE-CONFIG                   32 and 2 for each stream of one request (rounded up to 4)
 *   FORWARD TSN                 20 and 4 for each ordered stream on which messages are given up; past 16,381 streams
 *                               none is sent
 *   HEARTBEAT ACK               at most as long as the HEARTBEAT that came
 *   ABORT                       20 and the reason of sctp_assoc_abort (rounded up to 4)
 *   all others                  up to 100
 * One request resets all streams that were closed here since the last request was answered, or that the peer reset by
 * one of its own. So with max_payload_size 1200 a datagram has more than 1228 bytes if the peer leaves more than 300
 * gaps, if one request resets more than 598 streams, or if messages are given up on more than 302. UDP carries such a
 * datagram in fragments (up to 65,507 bytes). If it may not, close streams in groups, and wait for the
 * SCTP_ASSOC_EVENT_RESET_COMPLETE of one group before the next. What cannot be sent counts as lost. */
#define SCTP_ASSOC_MAX_DATAGRAM 65548
sctp_assoc_code sctp_assoc_poll_transmit(sctp_assoc *slot, uint64_t now, uint8_t *buffer, size_t room, size_t *length);

/* Writes the moment at which the next timer expires. If it isn't after now, sctp_assoc_handle_timeout is due. Codes:
 * DONE, EMPTY_SLOT, NOTHING. */
sctp_assoc_code sctp_assoc_poll_timeout(sctp_assoc *slot, uint64_t *moment);

/* Does what the timers that expired by `now` ask for, and nothing if none did; packets come by
 * sctp_assoc_poll_transmit. By SCTP_ASSOC_PROFILE_RFC a peer that is silent for good ends the association here, as by
 * sctp_assoc_close: DATA is not acknowledged past max_data_retransmits, or SHUTDOWN ACK not answered past
 * max_init_retransmits (RFC 4960 sections 8.1 and 9.2). Codes: DONE, EMPTY_SLOT, FAILED, NO_MEMORY (the association
 * has failed). */
sctp_assoc_code sctp_assoc_handle_timeout(sctp_assoc *slot, uint64_t now);

/* Asks the peer whether it is there: a HEARTBEAT waits to go out behind the datagrams that wait (RFC 4960 section 8.3).
 * A peer that is there answers within a round trip by a datagram that is SCTP_ASSOC_TAKEN and changes nothing else. No
 * timer runs for it, and it isn't sent again: docs/GUIDE.md shows how to keep a timer of silence. By
 * SCTP_ASSOC_PROFILE_PORT nothing goes out, as the answer would end the association. Codes: DONE, EMPTY_SLOT, FAILED,
 * NOT_ESTABLISHED, NO_MEMORY (nothing changed). */
sctp_assoc_code sctp_assoc_heartbeat(sctp_assoc *slot, uint64_t now);

/* ---- Events ---- */

#define SCTP_ASSOC_EVENT_CONNECTED 1            /* established: messages can be written from now on */
#define SCTP_ASSOC_EVENT_HANDSHAKE_FAILED 2     /* INIT or COOKIE ECHO went out too often; `reason` says which. It may
                                                 * be told once for each of the two. A late answer still establishes:
                                                 * CONNECTED may follow it, or come before it */
#define SCTP_ASSOC_EVENT_LOST 3                 /* the association was closed; `reason` */
#define SCTP_ASSOC_EVENT_DATAGRAM_RECEIVED 4    /* a DATA chunk was taken in; once for each */
#define SCTP_ASSOC_EVENT_STREAM_ENDED 5         /* `stream` ended; `counters` are its last ones */
#define SCTP_ASSOC_EVENT_OPENED 6               /* the peer opened `stream`, by a message, or by
                                                 * SCTP_ASSOC_PROFILE_RFC also by an ordered one that it gave up */
#define SCTP_ASSOC_EVENT_READABLE 7             /* messages of `stream` can be read: read until there is none */
#define SCTP_ASSOC_EVENT_BUFFERED_LOW 8         /* the buffered amount of `stream` fell to its low mark or below, by a
                                                 * datagram or by what sctp_assoc_poll_transmit gave up */
#define SCTP_ASSOC_EVENT_BUFFERED_HIGH 9        /* a write took it to the high mark or above */
#define SCTP_ASSOC_EVENT_FINISHED 10            /* the peer ended its half of `stream`, and all before that was read */
#define SCTP_ASSOC_EVENT_RESET_COMPLETE 11      /* both halves of `stream` are reset: it can be opened anew */
#define SCTP_ASSOC_EVENT_RESET_FAILED 12        /* the own half of `stream` wasn't reset, or the peer didn't answer so
                                                 * far: by SCTP_ASSOC_PROFILE_RFC it is asked again, and _RESET_COMPLETE
                                                 * may follow; `reason` */
#define SCTP_ASSOC_EVENT_OTHER 13               /* not told so far: an event that this header has no name for */

#define SCTP_ASSOC_REASON_NONE 0
#define SCTP_ASSOC_REASON_NO_INIT_ACK 1         /* of HANDSHAKE_FAILED: INIT wasn't answered */
#define SCTP_ASSOC_REASON_NO_COOKIE_ACK 2       /* of HANDSHAKE_FAILED: COOKIE ECHO wasn't answered */
#define SCTP_ASSOC_REASON_CLOSED 3              /* of LOST: the end of a shutdown of either side, sctp_assoc_close, an
                                                 * ABORT of either side or another fault of the peer; a watch tells
                                                 * which (SCTP_ASSOC_END_..) */
#define SCTP_ASSOC_REASON_BUFFER_EXHAUSTED 4    /* of LOST: the receive buffer is full of what can never be read; by
                                                 * SCTP_ASSOC_PROFILE_PORT also of what came on stopped streams */
#define SCTP_ASSOC_REASON_OTHER 5               /* not told so far */
#define SCTP_ASSOC_REASON_RESET_DENIED 6        /* of RESET_FAILED: the peer denied it (RFC 6525 section 4.4) */
#define SCTP_ASSOC_REASON_RESET_FAILED 7        /* of RESET_FAILED: the peer reported an error, or didn't answer */

/* Messages and bytes of a stream under the payload types of WebRTC application data (51, 53, 56, 57) alone. A number
 * that reaches UINT64_MAX stays there. */
typedef struct sctp_assoc_counters {
    uint64_t messages_sent;     /* accepted for sending */
    uint64_t bytes_sent;
    uint64_t messages_received; /* read */
    uint64_t bytes_received;
} sctp_assoc_counters;

typedef struct sctp_assoc_event {
    uint32_t kind;   /* SCTP_ASSOC_EVENT_.. */
    uint32_t reason; /* SCTP_ASSOC_REASON_.. */
    uint16_t stream; /* 0 if the kind has none */
    sctp_assoc_counters counters; /* of SCTP_ASSOC_EVENT_STREAM_ENDED, else all 0 */
} sctp_assoc_event;

/* Takes out the oldest event. Codes: DONE, EMPTY_SLOT, NOTHING, FAILED. */
sctp_assoc_code sctp_assoc_poll_event(sctp_assoc *slot, sctp_assoc_event *event);

/* For whoever keeps the slots of several associations: DONE tells, once and as soon as it is so, that the application
 * began a shutdown here (sctp_assoc_shutdown): nothing is written any more. That is the beginning of the end; all is
 * over only once sctp_assoc_is_drained says so, and reads and the calls of the loop go on until then. Nobody has to
 * ask. Codes: DONE, EMPTY_SLOT, NOTHING. */
sctp_assoc_code sctp_assoc_poll_endpoint_event(sctp_assoc *slot);

/* ---- Questions ----
 *
 * None of them changes anything. Two answer by themselves, of an empty slot too: it is not established, and it is
 * drained, so that a loop ends which goes on until then. `const` doesn't mean that two threads may ask at a time.
 * The others write their answer. Their codes: DONE, EMPTY_SLOT.
 */

/* Whether the state is Established (RFC 4960 section 4): messages can be written. False of an empty slot. */
bool sctp_assoc_is_established(const sctp_assoc *slot);

/* Whether the association was lost: by a fault, by sctp_assoc_close or _abort, or at the end of a shutdown. Nothing is
 * left then but the datagrams, events and messages that wait at the slot. True of an empty slot. One that has failed
 * (SCTP_ASSOC_FAILED) may never be drained. */
bool sctp_assoc_is_drained(const sctp_assoc *slot);

/* Whether a shutdown has begun, at either side, and the association isn't closed yet (RFC 4960 section 9.2). */
sctp_assoc_code sctp_assoc_is_closing(sctp_assoc *slot, bool *answer);

/* Whether the state is Closed: that of a server before its handshake, and of any side after a loss. */
sctp_assoc_code sctp_assoc_is_closed(sctp_assoc *slot, bool *answer);

/* Whether an earlier call found no memory in its middle. Then the association is over. */
sctp_assoc_code sctp_assoc_is_failed(sctp_assoc *slot, bool *answer);

/* What an association counted since it was made. A number that reaches UINT64_MAX stays there. */
typedef struct sctp_assoc_totals {
    uint64_t data_chunks;             /* DATA chunks that came, those too that were dropped */
    uint64_t sacks;                   /* SACK chunks that came */
    uint64_t retransmission_timeouts; /* how often the timer of retransmissions expired (RFC 4960 section 6.3.3) */
    uint64_t ack_timeouts;            /* how often the timer of delayed acknowledgements expired (section 6.2) */
    uint64_t fast_retransmissions;    /* DATA chunks that were sent again fast (section 7.2.4) */
} sctp_assoc_totals;

/* Writes what the association counted. It can be asked in a failed association too. */
sctp_assoc_code sctp_assoc_stats(sctp_assoc *slot, sctp_assoc_totals *totals);

/* Writes the retransmission timeout, in ms (RFC 4960 section 6.3.1). It can be asked in a failed association too. */
sctp_assoc_code sctp_assoc_rto(sctp_assoc *slot, uint64_t *ms);

/* How much the path to the peer takes, and how much is under way on it. 32 bytes. */
typedef struct sctp_assoc_path_values {
    uint32_t mtu;                    /* bytes; max_payload_size and 28: DATA chunks are bundled up to this length */
    uint32_t congestion_window;      /* bytes (RFC 4960 section 7.2) */
    uint32_t slow_start_threshold;   /* bytes (section 7.2.1); at first the first window that the peer offered */
    uint32_t peer_window;            /* bytes; the peer's receive window as it last said it, less the bytes in flight */
    uint64_t bytes_in_flight;        /* of DATA that went out and is neither acknowledged nor given up */
    uint64_t smoothed_round_trip_ms; /* section 6.3.1; 0 before the first measurement */
} sctp_assoc_path_values;

/* Writes what is known of the path to the peer. Of a closed or failed association it is what was known last. */
sctp_assoc_code sctp_assoc_path(sctp_assoc *slot, sctp_assoc_path_values *path);

/* ---- Streams ----
 *
 * A stream is named by its identifier, 0 to 65,535.
 */

/* Payload protocol identifiers with a name (RFC 8831 section 8), and 0. Calls refuse any other number by
 * BAD_PAYLOAD_TYPE, as it would be sent as 0; one that a peer sends is told as 0. */
#define SCTP_ASSOC_PPID_UNKNOWN 0
#define SCTP_ASSOC_PPID_DCEP 50
#define SCTP_ASSOC_PPID_STRING 51
#define SCTP_ASSOC_PPID_BINARY 53
#define SCTP_ASSOC_PPID_STRING_EMPTY 56
#define SCTP_ASSOC_PPID_BINARY_EMPTY 57
/* Of sctp_assoc_write alone: that which sctp_assoc_open_stream set. */
#define SCTP_ASSOC_PPID_OF_STREAM UINT32_MAX

/* Makes a stream on this side, whose messages have this payload protocol identifier unless a write names one. Nothing
 * is sent: the peer sees the stream by its first message, as SCTP_ASSOC_EVENT_OPENED says. Codes: DONE,
 * BAD_PAYLOAD_TYPE, EMPTY_SLOT, FAILED, STREAM_EXISTS, RESET_PENDING, NO_STREAM_LEFT, NO_MEMORY (nothing changed). */
sctp_assoc_code sctp_assoc_open_stream(sctp_assoc *slot, uint16_t stream, uint32_t payload_type);

/* Takes out the identifier of the oldest stream that the peer opened and that wasn't accepted yet. It needs no
 * accepting to be read or written, but its identifier waits here, in two bytes, each time that the peer opens it: so
 * call this at each SCTP_ASSOC_EVENT_OPENED, even if the answer is of no use. Codes: DONE, EMPTY_SLOT, NOTHING (also if
 * the association has failed). */
sctp_assoc_code sctp_assoc_accept_stream(sctp_assoc *slot, uint16_t *stream);

/* Accepts one message, which goes out with sctp_assoc_poll_transmit as the windows allow. Codes: DONE,
 * BAD_PAYLOAD_TYPE, EMPTY_SLOT, FAILED, NO_STREAM, STREAM_CLOSED, NOT_ESTABLISHED, RESET_PENDING, EMPTY_MESSAGE,
 * MESSAGE_TOO_LONG, NO_MEMORY (nothing changed). */
sctp_assoc_code sctp_assoc_write(sctp_assoc *slot, uint16_t stream, uint32_t payload_type, const uint8_t *message,
                                 size_t length);

/* Copies the next message of a stream, whole, to the front of the buffer, and writes its length and its payload
 * protocol identifier. At NO_ROOM the message stays, and `length` says how long it is. A message of length 0 comes only
 * from a peer that sends DATA without a byte; it cannot be written back (EMPTY_MESSAGE). If the peer ended its half,
 * the stream may end with its last message, and the next read answers NO_STREAM. Codes: DONE, EMPTY_SLOT, NOTHING,
 * NO_ROOM, FAILED, NO_STREAM, STREAM_CLOSED, NO_MEMORY (the message stays, or the association has failed).
 *
 * By SCTP_ASSOC_PROFILE_RFC a read that opens the receive window, also one that answers NO_ROOM, makes an
 * acknowledgement due at once, for which the peer may wait: so poll for datagrams after reads. The window is open if
 * 2 * (max_payload_size + 28) bytes may come, two packets, or half of max_receive_buffer_size if that is less. By
 * SCTP_ASSOC_PROFILE_PORT no read makes one due. */
sctp_assoc_code sctp_assoc_read(sctp_assoc *slot, uint16_t stream, uint8_t *buffer, size_t room, size_t *length,
                                uint32_t *payload_type);

/* Writes the length of the next message of a stream, 1 or more. The message stays, and a read with that much room gives
 * it. Messages of length 0 are dropped on the way. Codes: DONE, EMPTY_SLOT, NOTHING, FAILED, NO_STREAM, STREAM_CLOSED,
 * NO_MEMORY (the message stays, or the association has failed).
 *
 * It is a read without room, and leaves what one leaves that answers NO_ROOM: the message is out of the receive buffer.
 * So it counts as read (sctp_assoc_stream_stats), and if that opens the window, an acknowledgement is due: poll for
 * datagrams after it. If it is the last one of a stream that the peer ended, that end is told before it is read. It can
 * be read after a loss, too; sctp_assoc_stop drops it. Until then it takes some bytes of memory besides its own, and
 * nothing is copied. To call this again changes nothing. A call takes a step for each stream whose next message waits
 * so, as a read does. */
sctp_assoc_code sctp_assoc_next_length(sctp_assoc *slot, uint16_t stream, size_t *length);

/* Closes the write half of a stream. What was accepted goes out as before; the peer isn't told. Codes: DONE,
 * EMPTY_SLOT, FAILED, NO_STREAM. */
sctp_assoc_code sctp_assoc_finish(sctp_assoc *slot, uint16_t stream);

/* Closes the read half of a stream and asks for a reset of it (RFC 6525, RFC 8831 section 6.7). What was accepted goes
 * out first; then the peer is asked to reset its half, too. Nothing of the stream can be read or written any more, and
 * a message that didn't fit a buffer is dropped. Its end is told by SCTP_ASSOC_EVENT_STREAM_ENDED, _FINISHED and after
 * that _RESET_COMPLETE, at the peer, too. If the peer reset the stream and it isn't read to its end, what came of it is
 * dropped, also of its next use, which may open the receive window as a read does. If the read half is closed already,
 * nothing changes. Codes: DONE, EMPTY_SLOT, FAILED, NO_STREAM, CANNOT_RESET, NO_MEMORY (the association has failed).
 *
 * By SCTP_ASSOC_PROFILE_RFC all that is unread of the stream is so dropped, and what still comes of it until it ends is
 * acknowledged and dropped, too: so none of it takes room in the receive buffer, however much is under way. If the peer
 * reset the stream and DATA of its next use came, that use is reset, too, and told as ended once more. By
 * SCTP_ASSOC_PROFILE_PORT what is unread takes room until the stream ends, and may leave the buffer exhausted, which
 * ends the association. */
sctp_assoc_code sctp_assoc_stop(sctp_assoc *slot, uint16_t stream);

/* Closes both halves of a stream, first as sctp_assoc_finish and then as sctp_assoc_stop does, which says what becomes
 * of what is unread or under way. Codes: those of sctp_assoc_stop. */
sctp_assoc_code sctp_assoc_close_stream(sctp_assoc *slot, uint16_t stream);

/* How long a message is sent again (RFC 3758 section 4.1). */
#define SCTP_ASSOC_RELIABLE 0 /* until it is acknowledged */
#define SCTP_ASSOC_REXMIT 1   /* `value` times; at 0 it goes out once */
#define SCTP_ASSOC_TIMED 2    /* for `value` ms from the first sctp_assoc_poll_transmit after the write; at 0 never */

/* From now on writes of all streams take messages of up to `bytes` bytes, at 0 none; what was accepted stays. At first
 * this is max_send_message_size of the configuration. Codes: DONE (also if the association has failed, and then
 * nothing changes), EMPTY_SLOT. */
sctp_assoc_code sctp_assoc_set_max_send_message_size(sctp_assoc *slot, uint32_t bytes);

/* Sets how messages of a stream that are written from now on are sent: in order or not, and how long. A message past
 * that is given up whole by sctp_assoc_poll_transmit, and the peer reads all of it or nothing; no timer runs for it.
 * If the peer doesn't list FORWARD TSN, none is given up, and messages of SCTP_ASSOC_PPID_DCEP never are. Codes:
 * DONE, BAD_RELIABILITY, EMPTY_SLOT, FAILED, NO_STREAM. */
sctp_assoc_code sctp_assoc_set_reliability(sctp_assoc *slot, uint16_t stream, bool unordered, uint32_t kind,
                                           uint32_t value);

/* Writes the identifiers of the streams to the front of `ids`, ascending: those that this side opened, and those that
 * the peer did. `room` is how many identifiers fit, and `count` says how many there are. At NO_ROOM `ids` stays
 * as it was. Codes: DONE, EMPTY_SLOT, NO_ROOM, FAILED, NO_MEMORY (nothing changed). */
sctp_assoc_code sctp_assoc_stream_ids(sctp_assoc *slot, uint16_t *ids, size_t room, size_t *count);

/* Each of the calls below is about one stream. Codes: DONE, EMPTY_SLOT, FAILED, NO_STREAM; of
 * sctp_assoc_set_payload_type also BAD_PAYLOAD_TYPE, before those. Those that write a value change nothing. */

/* Writes what the stream counted since it was opened. A message that waits for a longer buffer counts as read. */
sctp_assoc_code sctp_assoc_stream_stats(sctp_assoc *slot, uint16_t stream, sctp_assoc_counters *counters);

/* Writes the payload protocol identifier of messages whose write names none: that of sctp_assoc_open_stream, and
 * SCTP_ASSOC_PPID_UNKNOWN for a stream that the peer opened; or sets it for messages that are written from now on. */
sctp_assoc_code sctp_assoc_payload_type(sctp_assoc *slot, uint16_t stream, uint32_t *payload_type);
sctp_assoc_code sctp_assoc_set_payload_type(sctp_assoc *slot, uint16_t stream, uint32_t payload_type);

/* Writes the buffered amount: how many bytes were accepted on the stream and are neither acknowledged nor given up. */
sctp_assoc_code sctp_assoc_buffered_amount(sctp_assoc *slot, uint16_t stream, size_t *bytes);

/* Writes, or sets, the low mark, in bytes, at first 0. If an acknowledgement, or what sctp_assoc_poll_transmit gives
 * up, takes the buffered amount from above it to it or below, SCTP_ASSOC_EVENT_BUFFERED_LOW tells. Setting it tells
 * nothing. */
sctp_assoc_code sctp_assoc_low_mark(sctp_assoc *slot, uint16_t stream, size_t *bytes);
sctp_assoc_code sctp_assoc_set_low_mark(sctp_assoc *slot, uint16_t stream, size_t bytes);

/* Writes, or sets, the high mark, in bytes, at first SIZE_MAX. A write that takes the buffered amount from below it to
 * it or above is told by SCTP_ASSOC_EVENT_BUFFERED_HIGH. Setting it tells nothing. */
sctp_assoc_code sctp_assoc_high_mark(sctp_assoc *slot, uint16_t stream, size_t *bytes);
sctp_assoc_code sctp_assoc_set_high_mark(sctp_assoc *slot, uint16_t stream, size_t bytes);

/* ---- Watching: what passed, and why it ended ----
 *
 * A watch stands beside a slot, counts the datagrams of its association and notes why that ended. It is plain data of
 * the program: it takes no memory from the heap, and there is nothing to free. It begins with all its bytes 0 and is
 * changed by the watched calls alone. A slot that gets a new association gets a new watch, too.
 *
 * A watched call makes the call whose name it has, answers its code and leaves what that leaves. Make these six in
 * place of those, all through the life of the association: what goes past the watch isn't counted, and an end that
 * another call brings isn't noted. Only that a read or a stop left the receive buffer exhausted is noted all the same,
 * once sctp_assoc_watched_poll_event gives SCTP_ASSOC_EVENT_LOST. Who wants no watch makes the calls without one, which
 * cost nothing more for this.
 */

/* Why the association ended. Of `end` of a watch; NONE until it has ended. */
#define SCTP_ASSOC_END_NONE 0
#define SCTP_ASSOC_END_CLOSED 1           /* sctp_assoc_watched_close closed it */
#define SCTP_ASSOC_END_ABORTED 2          /* sctp_assoc_watched_abort did */
#define SCTP_ASSOC_END_SHUT_DOWN 3        /* a shutdown of either side went to its end */
#define SCTP_ASSOC_END_ABORT_CAME 4       /* an ABORT of the peer; `cause` and `reason` */
#define SCTP_ASSOC_END_FAULT 5            /* another fault of the peer: a chunk that breaks the protocol or is not
                                           * processed; an ERROR by SCTP_ASSOC_PROFILE_PORT alone */
#define SCTP_ASSOC_END_BUFFER_EXHAUSTED 6 /* the receive buffer is full of what can never be read */
#define SCTP_ASSOC_END_SILENT 7           /* the peer is silent: DATA, or the end of a shutdown, is not answered; by
                                           * SCTP_ASSOC_PROFILE_RFC alone */

/* 168 bytes. A number that reaches UINT64_MAX stays there. */
typedef struct sctp_assoc_watch {
    uint64_t datagrams_sent;     /* given out by sctp_assoc_watched_poll_transmit */
    uint64_t bytes_sent;         /* their bytes */
    uint64_t datagrams_received; /* handed in, and taken (SCTP_ASSOC_TAKEN) */
    uint64_t bytes_received;     /* their bytes */
    uint32_t end;                /* SCTP_ASSOC_END_.. */
    uint16_t cause;              /* of ABORT_CAME: the code of the ABORT's first cause (RFC 4960 section 3.3.10; 12 is
                                  * User-Initiated Abort), 0 if it has none */
    uint16_t reason_length;      /* of ABORT_CAME: how many bytes `reason` has, up to 128 */
    uint8_t reason[128];         /* the first bytes of that cause's value: whatever the peer wrote there */
} sctp_assoc_watch;

/* sctp_assoc_watch watch = SCTP_ASSOC_WATCH_NEW; */
#define SCTP_ASSOC_WATCH_NEW {0, 0, 0, 0, 0, 0, 0, {0}}

sctp_assoc_code sctp_assoc_watched_handle_datagram(sctp_assoc *slot, sctp_assoc_watch *watch, uint64_t now,
                                                   const uint8_t *datagram, size_t length, uint32_t *fate);
sctp_assoc_code sctp_assoc_watched_poll_transmit(sctp_assoc *slot, sctp_assoc_watch *watch, uint64_t now,
                                                 uint8_t *buffer, size_t room, size_t *length);
sctp_assoc_code sctp_assoc_watched_handle_timeout(sctp_assoc *slot, sctp_assoc_watch *watch, uint64_t now);
sctp_assoc_code sctp_assoc_watched_poll_event(sctp_assoc *slot, sctp_assoc_watch *watch, sctp_assoc_event *event);
sctp_assoc_code sctp_assoc_watched_close(sctp_assoc *slot, sctp_assoc_watch *watch);
sctp_assoc_code sctp_assoc_watched_abort(sctp_assoc *slot, sctp_assoc_watch *watch, const uint8_t *reason,
                                         size_t length);

/* ---- Metrics: the numbers of an association at once ---- */

/* 128 bytes. Each field says by which call it can be asked by itself. */
typedef struct sctp_assoc_metrics {
    sctp_assoc_path_values path; /* sctp_assoc_path */
    sctp_assoc_totals totals;    /* sctp_assoc_stats */
    uint64_t rto_ms;             /* sctp_assoc_rto */
    uint64_t datagrams_sent;     /* this and the next three: what the watch counted, 0 without one */
    uint64_t bytes_sent;
    uint64_t datagrams_received;
    uint64_t bytes_received;
    uint64_t next_timeout;       /* sctp_assoc_poll_timeout: when the next timer expires; 0 if none runs */
    bool timer_runs;             /* a timer runs, so that `next_timeout` is one */
    bool established;            /* sctp_assoc_is_established */
    bool closing;                /* sctp_assoc_is_closing */
    bool closed;                 /* sctp_assoc_is_closed */
    bool drained;                /* sctp_assoc_is_drained */
    bool failed;                 /* sctp_assoc_is_failed */
} sctp_assoc_metrics;

/* Writes all fields, such as for a dashboard, and changes nothing. `watch` is that of the slot, or NULL. Of a failed
 * association `failed` is true and no timer runs; all else is what was known last, `established`, too, although nothing
 * can be written any more. Codes: DONE, EMPTY_SLOT. */
sctp_assoc_code sctp_assoc_get_metrics(sctp_assoc *slot, const sctp_assoc_watch *watch, sctp_assoc_metrics *metrics);

/* ---- Names to print ----
 *
 * What a number is called here, without its prefix: "NO_MEMORY" is the name of SCTP_ASSOC_NO_MEMORY, and "SHUT_DOWN"
 * that of SCTP_ASSOC_END_SHUT_DOWN. A number that has none here is "unknown code", "unknown fate" and so on. The text
 * is constant, and nobody frees it. These calls touch no slot and may be made at any time, from any thread.
 */
const char *sctp_assoc_code_name(sctp_assoc_code code);
const char *sctp_assoc_fate_name(uint32_t fate);     /* SCTP_ASSOC_TAKEN and the four after it */
const char *sctp_assoc_event_name(uint32_t kind);    /* SCTP_ASSOC_EVENT_.. */
const char *sctp_assoc_reason_name(uint32_t reason); /* SCTP_ASSOC_REASON_.. */
const char *sctp_assoc_end_name(uint32_t end);       /* SCTP_ASSOC_END_.. */

/* ---- An observer of datagrams ----
 *
 * Is told of each datagram that was taken or given out, once it was, such as to write a capture. `outgoing` says which,
 * and `user` is what the program handed in. It may not make a call on the slot or the watch. The two calls below stand
 * in this header alone: a watched call, and the observer after it if that answered DONE.
 */
typedef void sctp_assoc_observer(void *user, bool outgoing, uint64_t now, const uint8_t *datagram, size_t length);

static inline sctp_assoc_code sctp_assoc_observed_handle_datagram(sctp_assoc *slot, sctp_assoc_watch *watch,
                                                                  sctp_assoc_observer *observer, void *user,
                                                                  uint64_t now, const uint8_t *datagram,
                                                                  size_t length, uint32_t *fate) {
    sctp_assoc_code code = sctp_assoc_watched_handle_datagram(slot, watch, now, datagram, length, fate);
    if (code == SCTP_ASSOC_DONE && *fate == SCTP_ASSOC_TAKEN)
        observer(user, false, now, datagram, length);
    return code;
}

static inline sctp_assoc_code sctp_assoc_observed_poll_transmit(sctp_assoc *slot, sctp_assoc_watch *watch,
                                                                sctp_assoc_observer *observer, void *user,
                                                                uint64_t now, uint8_t *buffer, size_t room,
                                                                size_t *length) {
    sctp_assoc_code code = sctp_assoc_watched_poll_transmit(slot, watch, now, buffer, room, length);
    if (code == SCTP_ASSOC_DONE)
        observer(user, true, now, buffer, *length);
    return code;
}

/* ---- A heap of the program's own ----
 *
 * It is set by a call, or its functions are defined under the names by which the library calls them, which spares an
 * indirect call for each block. In either case they are called by each thread that makes calls here, by several at a
 * time if several do, and make no call of this library themselves.
 */

/* 32 bytes. None of the three functions is NULL, and each is handed `user`. `size` is 1 or more, `align` a power of two
 * up to 16. `allocate` answers a block. `reallocate` answers one that has the first `kept` bytes of the block `at`,
 * which is given back by that. Both answer NULL if they refuse, and then `at` stays as it was. */
typedef struct sctp_assoc_heap {
    void *(*allocate)(void *user, size_t size, size_t align);
    void *(*reallocate)(void *user, void *at, size_t kept, size_t size, size_t align);
    void (*release)(void *user, void *at); /* gives a block back, never NULL */
    void *user;                            /* the program's own, which may be NULL */
} sctp_assoc_heap;

/* Sets the heap of the process; NULL sets malloc, realloc and free again, as at first. The struct is copied. Call this
 * before the first association or channels are made, and again only while there are none: each block is given back to
 * the heap that is set at that time. No other thread makes a call of this library meanwhile. A program that defines the
 * functions below cannot be linked with this call. Answers SCTP_ASSOC_DONE. */
sctp_assoc_code sctp_assoc_set_heap(const sctp_assoc_heap *heap);

/* A program that defines all three has the library take its memory from them; `#define SCTP_ASSOC_HEAP` before this
 * header declares them. Give the linker the program's definitions before the archive. `align` is a power of two up to
 * 16, and a block of `size` 0 has an address of its own too. What rattle_realloc answers keeps its first `kept` bytes.
 * The first two answer ok = false if they refuse; then the old block stays as it was, and `at` leads anywhere but to
 * NULL. */
#ifdef SCTP_ASSOC_HEAP
typedef struct sctp_assoc_block {
    bool ok;
    void *at;
} sctp_assoc_block;
sctp_assoc_block rattle_alloc(size_t size, size_t align);
sctp_assoc_block rattle_realloc(void *at, size_t kept, size_t size, size_t align);
void rattle_dealloc(void *at);
#endif

#ifdef __cplusplus
}
#endif

#endif
