/* The size of each struct of sctp_channels.h, and offset and size of each of its fields, as host/layout_channels.txt
 * lists them: host/layout.c does the same for sctp_assoc.h. */
#include "sctp_channels.h"

#include <stdio.h>

#define STRUCT(name) printf("%s %zu\n", #name, sizeof(name))
#define FIELD(name, field) printf("%s.%s %zu %zu\n", #name, #field, offsetof(name, field), sizeof(((name *)0)->field))

static void slot(void) {
    sctp_channels filled = {0, 0};
    (void)filled;
    STRUCT(sctp_channels);
    FIELD(sctp_channels, at);
    FIELD(sctp_channels, live);
}

static void peer(void) {
    sctp_peer filled = SCTP_PEER_EMPTY;
    (void)filled;
    STRUCT(sctp_peer);
    FIELD(sctp_peer, assoc);
    FIELD(sctp_peer, channels);
}

static void options(void) {
    sctp_channels_options filled = SCTP_CHANNELS_ORDERED_RELIABLE;
    (void)filled;
    STRUCT(sctp_channels_options);
    FIELD(sctp_channels_options, reliability);
    FIELD(sctp_channels_options, value);
    FIELD(sctp_channels_options, priority);
    FIELD(sctp_channels_options, id);
    FIELD(sctp_channels_options, unordered);
    FIELD(sctp_channels_options, negotiated);
}

static void event(void) {
    sctp_channels_event filled = {0, 0, 0};
    (void)filled;
    STRUCT(sctp_channels_event);
    FIELD(sctp_channels_event, kind);
    FIELD(sctp_channels_event, reason);
    FIELD(sctp_channels_event, id);
}

static void info(void) {
    sctp_channels_info filled = {0, 0, 0, 0, 0, 0, 0, 0};
    (void)filled;
    STRUCT(sctp_channels_info);
    FIELD(sctp_channels_info, reliability);
    FIELD(sctp_channels_info, value);
    FIELD(sctp_channels_info, state);
    FIELD(sctp_channels_info, priority);
    FIELD(sctp_channels_info, label_length);
    FIELD(sctp_channels_info, protocol_length);
    FIELD(sctp_channels_info, unordered);
    FIELD(sctp_channels_info, negotiated);
}

int main(void) {
    slot();
    peer();
    options();
    event();
    info();
    return 0;
}
