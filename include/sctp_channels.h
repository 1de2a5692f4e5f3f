/*
 * sctp_channels: data channels (RFC 8831, RFC 8832) over one association of sctp_assoc, for C and C++.
 *
 * A `sctp_peer` is one side, with its association and the channels over it:
 *
 *     sctp_peer peer = SCTP_PEER_EMPTY;
 *     sctp_assoc_client(&peer.assoc, &config, max_payload_size, &identity, now);
 *     sctp_channels_begin(&peer, SCTP_CHANNELS_CLIENT);
 *     sctp_channels_open(&peer, &options, label, label_length, NULL, 0, &id);
 *     ... the loop ...
 *     sctp_peer_free(&peer);
 *
 * The calls below take `&peer`, and those of sctp_assoc.h take `&peer.assoc`. "The peer" in a comment is the other
 * side, as in sctp_assoc.h. `./library channels` builds the archive to link with, in place of the other: it has the
 * calls of sctp_assoc.h, too.
 *
 * The loop is that of sctp_assoc.h but for the events that its step 3 takes: call sctp_channels_poll_event until it
 * answers SCTP_ASSOC_NOTHING, in place of sctp_assoc_poll_event and sctp_assoc_accept_stream. At
 * SCTP_CHANNELS_EVENT_MESSAGE call sctp_channels_receive until it answers SCTP_ASSOC_NOTHING, or the channel is gone.
 * What these calls write, as OPENs and ACKs, goes out by sctp_assoc_poll_transmit like messages do, and what they read
 * may open the receive window as sctp_assoc_read does. So do that step after them, too: take events and poll for
 * datagrams until neither brings anything.
 *
 * What C owes is what the head of sctp_assoc.h says of a slot, for the whole `sctp_peer`: one call at a time on it and
 * on its association. For sctp_peer_free alone it may be NULL. Besides, channels stay with the association that they
 * were first used with: where `peer.assoc` gets another one, begin the channels anew, too. And streams that have a
 * channel are left to these calls: on them sctp_assoc_write, _read, _finish, _stop and _close_stream are not called.
 * Other calls of sctp_assoc.h may be made as ever.
 *
 * sctp_channels_code_name gives the name of a code to print, and two calls beside it those of events and states.
 */
#ifndef SCTP_CHANNELS_H
#define SCTP_CHANNELS_H

#include "sctp_assoc.h"

#ifdef __cplusplus
extern "C" {
#endif

/* ---- One side ---- */

/* What the channels of a side lie in, 16 bytes. It is a part of sctp_peer; don't touch its fields. */
typedef struct sctp_channels {
    void *at;
    bool live;
} sctp_channels;

/* Room for one side: an association, and the channels over it, 32 bytes. All bytes 0 is the empty one. The calls of
 * sctp_assoc.h take `&peer.assoc`; don't touch `channels`. */
typedef struct sctp_peer {
    sctp_assoc assoc;
    sctp_channels channels;
} sctp_peer;

/* sctp_peer peer = SCTP_PEER_EMPTY; */
#define SCTP_PEER_EMPTY {SCTP_ASSOC_EMPTY, {0, 0}}

/* ---- Codes ----
 *
 * Each call answers a code of sctp_assoc.h, or one of those below. What it gives is written if it answers
 * SCTP_ASSOC_DONE, and a length also at SCTP_ASSOC_NO_ROOM and SCTP_CHANNELS_OTHER. At every other code what the
 * pointers lead to stays as it was, but for the buffer of sctp_channels_receive.
 * SCTP_ASSOC_EMPTY_SLOT: there is no association, or no channels were begun; nothing changed. Of the two the calls
 * sctp_channels_get_info, _label and _protocol need the channels alone, and sctp_channels_set_max_message_size the
 * association alone.
 * SCTP_ASSOC_NO_MEMORY: memory was refused. What that leaves:
 *   sctp_channels_poll_event               it can be called again and goes on where it was, or the association has
 *                                          failed
 *   sctp_channels_receive, _close          the channel stays as it is, or the association has failed
 *   all other calls                        nothing changed
 */
#define SCTP_CHANNELS_LABEL_TOO_LONG 40          /* the label or the protocol is longer than 65,535 bytes */
#define SCTP_CHANNELS_NO_IDENTIFIER_LEFT 41      /* each identifier of this side has a channel */
#define SCTP_CHANNELS_IDENTIFIER_TAKEN 42        /* the negotiated identifier has a channel, or is 65,535 */
#define SCTP_CHANNELS_NO_CHANNEL 43              /* there is no such channel */
#define SCTP_CHANNELS_NOT_OPEN 44                /* its OPEN was not written yet, or it ends */
#define SCTP_CHANNELS_IDENTIFIER_PAST_STREAMS 45 /* this side may not send on so many streams */
#define SCTP_CHANNELS_LOST 46                    /* the association was lost */
#define SCTP_CHANNELS_OTHER 47                   /* no refusal: a message of another payload type was received */
#define SCTP_CHANNELS_BAD_ROLE 70                /* the role is neither of the two below */

/* ---- Begin and end ---- */

/* The role of this side in the DTLS handshake: a client's own channels have even identifiers, a server's odd ones (RFC
 * 8832 section 6). */
#define SCTP_CHANNELS_CLIENT 0
#define SCTP_CHANNELS_SERVER 1

/* Begins the channels of a side, which has none at first; those that it had before are freed then. It may come before
 * the association is made, or after. Codes: DONE, BAD_ROLE, NO_MEMORY; at all but DONE all stays as it was. */
sctp_assoc_code sctp_channels_begin(sctp_peer *peer, uint32_t role);

/* Frees the channels and the association with all that waits in it, and leaves both empty; sctp_assoc_free leaves the
 * channels. The other side is told nothing. NULL counts as an empty one. Codes: DONE, EMPTY_SLOT (there was neither).
 */
sctp_assoc_code sctp_peer_free(sctp_peer *peer);

/* ---- Channels ----
 *
 * A channel is named by the identifier of its stream, 0 to 65,534.
 */

/* What a channel is asked to be, but for its label and protocol. All bytes 0 is an ordered and reliable channel. 16
 * bytes. */
typedef struct sctp_channels_options {
    uint32_t reliability; /* SCTP_ASSOC_RELIABLE, _REXMIT (maxRetransmits) or _TIMED (maxPacketLifeTime) */
    uint32_t value;       /* of REXMIT: how often a message goes out again at most; of TIMED: for how many ms */
    uint16_t priority;    /* RFC 8831 section 6.4; the peer is told it, and nothing more is done with it */
    uint16_t id;          /* the identifier, if `negotiated` */
    bool unordered;       /* messages are delivered as they come */
    bool negotiated;      /* both sides agreed on `id` in another way, and open the channel each; else DCEP tells the
                           * peer, and this side takes the least identifier of its own that no channel has */
} sctp_channels_options;

/* sctp_channels_options options = SCTP_CHANNELS_ORDERED_RELIABLE; */
#define SCTP_CHANNELS_ORDERED_RELIABLE {0, 0, 0, 0, 0, 0}

/* Makes a channel of this side and writes its identifier. Label and protocol are UTF-8 by RFC 8832 section 5.1, and
 * nothing here looks at that. It needs no established association: the channel's OPEN is written, or its stream opened
 * if it is negotiated, by the next sctp_channels_poll_event of an established one, and from then on it can be sent on;
 * until then sctp_channels_send answers NOT_OPEN. Identifiers stop at the streams on which this side may send: before
 * the handshake has agreed on their number, at as many as this side offers (`max_num_outbound_streams`). A channel
 * whose identifier lies past those that were agreed on SCTP_CHANNELS_EVENT_FAILED tells. Codes, refusals in this order
 * and with nothing changed: DONE, BAD_RELIABILITY, EMPTY_SLOT, LABEL_TOO_LONG, FAILED, LOST, IDENTIFIER_TAKEN,
 * IDENTIFIER_PAST_STREAMS, NO_IDENTIFIER_LEFT, NO_MEMORY. */
sctp_assoc_code sctp_channels_open(sctp_peer *peer, const sctp_channels_options *options, const uint8_t *label,
                                   size_t label_length, const uint8_t *protocol, size_t protocol_length, uint16_t *id);

/* Ends a channel: its stream is reset (RFC 8831 section 6.7) after what was accepted went out, and messages that came
 * are not received any more, nor is what the peer still sends: by SCTP_ASSOC_PROFILE_RFC it is dropped and takes no
 * room in the receive buffer, as sctp_assoc_stop says. SCTP_CHANNELS_EVENT_CLOSED tells the end. A channel whose OPEN
 * was not written yet is gone at once, and nothing is told; one that ends goes on to. Codes: DONE, EMPTY_SLOT,
 * NO_CHANNEL, and as of sctp_assoc_close_stream FAILED, NO_STREAM, CANNOT_RESET, NO_MEMORY (the association has
 * failed). */
sctp_assoc_code sctp_channels_close(sctp_peer *peer, uint16_t id);

/* ---- Events ---- */

#define SCTP_CHANNELS_EVENT_CONNECTED 1        /* the association is established */
#define SCTP_CHANNELS_EVENT_ANNOUNCED 2        /* the peer opened the channel `id`; it is open */
#define SCTP_CHANNELS_EVENT_OPENED 3           /* the channel `id` of this side is open: the peer answered. One that is
                                                * negotiated is open once the association is established */
#define SCTP_CHANNELS_EVENT_MESSAGE 4          /* messages of `id` may have come: receive until there is none */
#define SCTP_CHANNELS_EVENT_BUFFERED_LOW 5     /* the buffered amount of `id` fell from above its low threshold to it or
                                                * below */
#define SCTP_CHANNELS_EVENT_CLOSED 6           /* the channel `id` ended, by either side, and all that came before was
                                                * received. It is gone and `id` is free again, unless the reset of its
                                                * stream failed: then it stays in SCTP_CHANNELS_STATE_CLOSING, and this
                                                * is told once more if the peer answers later */
#define SCTP_CHANNELS_EVENT_FAILED 7           /* the peer's stream `id` began with something else than an OPEN and is
                                                * being reset, or this side's channel `id` could not be begun, as where
                                                * a reset of its stream is still open. There is no such channel */
#define SCTP_CHANNELS_EVENT_LOST 8             /* the association ended; `reason`. All channels are gone. A watch beside
                                                * it does not see the events that are taken here: if it was one of
                                                * these calls that left the receive buffer exhausted, and no datagram,
                                                * the watch notes no end */
#define SCTP_CHANNELS_EVENT_HANDSHAKE_FAILED 9 /* its handshake failed; `reason`. All channels are gone */

/* 12 bytes. */
typedef struct sctp_channels_event {
    uint32_t kind;   /* SCTP_CHANNELS_EVENT_.. */
    uint32_t reason; /* of LOST and HANDSHAKE_FAILED: SCTP_ASSOC_REASON_.., else 0 */
    uint16_t id;     /* 0 if the kind has none */
} sctp_channels_event;

/* Takes out the next event. It takes the events of the association, and on the way it writes the OPENs that wait, reads
 * the first messages of streams and writes ACKs. Codes: DONE, EMPTY_SLOT, NOTHING, FAILED, NO_MEMORY (call it again, or
 * the association has failed). */
sctp_assoc_code sctp_channels_poll_event(sctp_peer *peer, sctp_channels_event *event);

/* ---- Messages ---- */

/* From now on all channels of an association send messages of up to `bytes` bytes, by the attribute max-message-size of
 * the peer's session description: 0 is any length, and without the attribute it is 65,536 (RFC 8841 section 6). Codes:
 * DONE (also if the association has failed, and then nothing changes), EMPTY_SLOT. */
sctp_assoc_code sctp_channels_set_max_message_size(sctp_peer *peer, uint32_t bytes);

/* Accepts one message, a text or a binary one, which goes out with sctp_assoc_poll_transmit as the windows allow. A
 * text is UTF-8 by RFC 8831 section 6.6, and nothing here looks at that. It may be empty. Before the peer answered the
 * OPEN it goes in order. Codes, refusals in this order and with nothing changed: DONE, EMPTY_SLOT, NO_CHANNEL,
 * NOT_OPEN, and as of sctp_assoc_write FAILED, NO_STREAM, STREAM_CLOSED, NOT_ESTABLISHED, RESET_PENDING,
 * MESSAGE_TOO_LONG, NO_MEMORY. */
sctp_assoc_code sctp_channels_send(sctp_peer *peer, uint16_t id, bool is_text, const uint8_t *message, size_t length);

/* Copies the next message of a channel, whole, to the front of the buffer, and writes its length, which may be 0, and
 * whether it is a text. At NO_ROOM the message stays, and `length` says how long it is. NOTHING also on a channel that
 * is not open yet. SCTP_CHANNELS_OTHER gives a message, too, by its length: one of a payload type that RFC 8831 does
 * not have, or that it has deprecated (of 52 and 54 each is a part of a message), which most programs pass over. DCEP
 * messages are dropped on the way; they may be told as NO_ROOM, too, and may have changed the buffer at any code but
 * EMPTY_SLOT and NO_CHANNEL. A second OPEN of the peer ends the channel. Codes: DONE, EMPTY_SLOT, NOTHING, NO_ROOM,
 * OTHER, NO_CHANNEL, FAILED, NO_MEMORY, and as of sctp_channels_close where a second OPEN came. */
sctp_assoc_code sctp_channels_receive(sctp_peer *peer, uint16_t id, uint8_t *buffer, size_t room, size_t *length,
                                      bool *is_text);

/* ---- Questions ---- */

/* The states of the W3C's channels; one that is closed is gone. */
#define SCTP_CHANNELS_STATE_CONNECTING 0
#define SCTP_CHANNELS_STATE_OPEN 1
#define SCTP_CHANNELS_STATE_CLOSING 2

/* What a channel is. 20 bytes. */
typedef struct sctp_channels_info {
    uint32_t reliability; /* SCTP_ASSOC_RELIABLE, _REXMIT or _TIMED */
    uint32_t value;       /* of REXMIT and TIMED, else 0 */
    uint32_t state;       /* SCTP_CHANNELS_STATE_.. */
    uint16_t priority;
    uint16_t label_length;    /* bytes */
    uint16_t protocol_length; /* bytes */
    bool unordered;
    bool negotiated;
} sctp_channels_info;

/* Each of the calls below is about one channel. Those that write a value change nothing. */

/* Writes what the channel is. Codes: DONE, EMPTY_SLOT, NO_CHANNEL. */
sctp_assoc_code sctp_channels_get_info(sctp_peer *peer, uint16_t id, sctp_channels_info *info);

/* Copies the label, or the protocol, to the front of the buffer, and writes its length. At NO_ROOM the buffer stays as
 * it was, and `length` says how long it is. Codes: DONE, EMPTY_SLOT, NO_ROOM, NO_CHANNEL. */
sctp_assoc_code sctp_channels_label(sctp_peer *peer, uint16_t id, uint8_t *buffer, size_t room, size_t *length);
sctp_assoc_code sctp_channels_protocol(sctp_peer *peer, uint16_t id, uint8_t *buffer, size_t room, size_t *length);

/* Writes the buffered amount: how many bytes were accepted on the channel's stream, those of DCEP too, and are neither
 * acknowledged nor given up. Codes of this and the next two: DONE, EMPTY_SLOT, NO_CHANNEL, FAILED, NO_STREAM (its
 * stream is not opened yet). */
sctp_assoc_code sctp_channels_buffered_amount(sctp_peer *peer, uint16_t id, size_t *bytes);

/* Writes, or sets, the low threshold of the buffered amount, in bytes, at first 0: SCTP_CHANNELS_EVENT_BUFFERED_LOW
 * tells when it falls to that. Setting it tells nothing. */
sctp_assoc_code sctp_channels_low_threshold(sctp_peer *peer, uint16_t id, size_t *bytes);
sctp_assoc_code sctp_channels_set_low_threshold(sctp_peer *peer, uint16_t id, size_t bytes);

/* ---- Names to print ----
 *
 * What a number is called, as of sctp_assoc_code_name. That of a code is one of this header or of sctp_assoc.h, as
 * the calls answer both.
 */
const char *sctp_channels_code_name(sctp_assoc_code code);
const char *sctp_channels_event_name(uint32_t kind);  /* SCTP_CHANNELS_EVENT_.. */
const char *sctp_channels_state_name(uint32_t state); /* SCTP_CHANNELS_STATE_.. */

#ifdef __cplusplus
}
#endif

#endif
