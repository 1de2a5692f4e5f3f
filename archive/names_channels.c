/* What the numbers of include/sctp_channels.h are called, as in archive/names.c. */
#include "sctp_channels.h"

const char *sctp_channels_code_name(sctp_assoc_code code) {
    switch (code) {
    case SCTP_CHANNELS_LABEL_TOO_LONG: return "LABEL_TOO_LONG";
    case SCTP_CHANNELS_NO_IDENTIFIER_LEFT: return "NO_IDENTIFIER_LEFT";
    case SCTP_CHANNELS_IDENTIFIER_TAKEN: return "IDENTIFIER_TAKEN";
    case SCTP_CHANNELS_NO_CHANNEL: return "NO_CHANNEL";
    case SCTP_CHANNELS_NOT_OPEN: return "NOT_OPEN";
    case SCTP_CHANNELS_IDENTIFIER_PAST_STREAMS: return "IDENTIFIER_PAST_STREAMS";
    case SCTP_CHANNELS_LOST: return "LOST";
    case SCTP_CHANNELS_OTHER: return "OTHER";
    case SCTP_CHANNELS_BAD_ROLE: return "BAD_ROLE";
    default: return sctp_assoc_code_name(code);
    }
}

const char *sctp_channels_event_name(uint32_t kind) {
    switch (kind) {
    case SCTP_CHANNELS_EVENT_CONNECTED: return "CONNECTED";
    case SCTP_CHANNELS_EVENT_ANNOUNCED: return "ANNOUNCED";
    case SCTP_CHANNELS_EVENT_OPENED: return "OPENED";
    case SCTP_CHANNELS_EVENT_MESSAGE: return "MESSAGE";
    case SCTP_CHANNELS_EVENT_BUFFERED_LOW: return "BUFFERED_LOW";
    case SCTP_CHANNELS_EVENT_CLOSED: return "CLOSED";
    case SCTP_CHANNELS_EVENT_FAILED: return "FAILED";
    case SCTP_CHANNELS_EVENT_LOST: return "LOST";
    case SCTP_CHANNELS_EVENT_HANDSHAKE_FAILED: return "HANDSHAKE_FAILED";
    default: return "unknown event";
    }
}

const char *sctp_channels_state_name(uint32_t state) {
    switch (state) {
    case SCTP_CHANNELS_STATE_CONNECTING: return "CONNECTING";
    case SCTP_CHANNELS_STATE_OPEN: return "OPEN";
    case SCTP_CHANNELS_STATE_CLOSING: return "CLOSING";
    default: return "unknown state";
    }
}
