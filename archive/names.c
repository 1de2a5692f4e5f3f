/* What the numbers of include/sctp_assoc.h are called, for people to read. The texts are constant, and nothing here
 * takes memory, keeps anything or calls anything. */
#include "sctp_assoc.h"

const char *sctp_assoc_code_name(sctp_assoc_code code) {
    switch (code) {
    case SCTP_ASSOC_DONE: return "DONE";
    case SCTP_ASSOC_EMPTY_SLOT: return "EMPTY_SLOT";
    case SCTP_ASSOC_NO_MEMORY: return "NO_MEMORY";
    case SCTP_ASSOC_NOTHING: return "NOTHING";
    case SCTP_ASSOC_NO_ROOM: return "NO_ROOM";
    case SCTP_ASSOC_BAD_PAYLOAD_SIZE: return "BAD_PAYLOAD_SIZE";
    case SCTP_ASSOC_BAD_INITIAL_TSN: return "BAD_INITIAL_TSN";
    case SCTP_ASSOC_BAD_TOKEN: return "BAD_TOKEN";
    case SCTP_ASSOC_FAILED: return "FAILED";
    case SCTP_ASSOC_STREAM_EXISTS: return "STREAM_EXISTS";
    case SCTP_ASSOC_RESET_PENDING: return "RESET_PENDING";
    case SCTP_ASSOC_NO_STREAM_LEFT: return "NO_STREAM_LEFT";
    case SCTP_ASSOC_NO_STREAM: return "NO_STREAM";
    case SCTP_ASSOC_SHUTDOWN_NOT_ESTABLISHED: return "SHUTDOWN_NOT_ESTABLISHED";
    case SCTP_ASSOC_NOT_ESTABLISHED: return "NOT_ESTABLISHED";
    case SCTP_ASSOC_CANNOT_RESET: return "CANNOT_RESET";
    case SCTP_ASSOC_STREAM_CLOSED: return "STREAM_CLOSED";
    case SCTP_ASSOC_MESSAGE_TOO_LONG: return "MESSAGE_TOO_LONG";
    case SCTP_ASSOC_EMPTY_MESSAGE: return "EMPTY_MESSAGE";
    case SCTP_ASSOC_NO_RANDOM: return "NO_RANDOM";
    case SCTP_ASSOC_BAD_INIT: return "BAD_INIT";
    case SCTP_ASSOC_BAD_TIMEOUT: return "BAD_TIMEOUT";
    case SCTP_ASSOC_BAD_PROFILE: return "BAD_PROFILE";
    case SCTP_ASSOC_BAD_PORT: return "BAD_PORT";
    case SCTP_ASSOC_BAD_STREAMS: return "BAD_STREAMS";
    case SCTP_ASSOC_BAD_WINDOW: return "BAD_WINDOW";
    case SCTP_ASSOC_BAD_TAG: return "BAD_TAG";
    case SCTP_ASSOC_BAD_PAYLOAD_TYPE: return "BAD_PAYLOAD_TYPE";
    case SCTP_ASSOC_BAD_RELIABILITY: return "BAD_RELIABILITY";
    default: return "unknown code";
    }
}

const char *sctp_assoc_fate_name(uint32_t fate) {
    switch (fate) {
    case SCTP_ASSOC_TAKEN: return "TAKEN";
    case SCTP_ASSOC_NO_PACKET: return "NO_PACKET";
    case SCTP_ASSOC_OTHER_TAG: return "OTHER_TAG";
    case SCTP_ASSOC_REPEATED_INIT: return "REPEATED_INIT";
    case SCTP_ASSOC_OTHER_INIT: return "OTHER_INIT";
    default: return "unknown fate";
    }
}

const char *sctp_assoc_event_name(uint32_t kind) {
    switch (kind) {
    case SCTP_ASSOC_EVENT_CONNECTED: return "CONNECTED";
    case SCTP_ASSOC_EVENT_HANDSHAKE_FAILED: return "HANDSHAKE_FAILED";
    case SCTP_ASSOC_EVENT_LOST: return "LOST";
    case SCTP_ASSOC_EVENT_DATAGRAM_RECEIVED: return "DATAGRAM_RECEIVED";
    case SCTP_ASSOC_EVENT_STREAM_ENDED: return "STREAM_ENDED";
    case SCTP_ASSOC_EVENT_OPENED: return "OPENED";
    case SCTP_ASSOC_EVENT_READABLE: return "READABLE";
    case SCTP_ASSOC_EVENT_BUFFERED_LOW: return "BUFFERED_LOW";
    case SCTP_ASSOC_EVENT_BUFFERED_HIGH: return "BUFFERED_HIGH";
    case SCTP_ASSOC_EVENT_FINISHED: return "FINISHED";
    case SCTP_ASSOC_EVENT_RESET_COMPLETE: return "RESET_COMPLETE";
    case SCTP_ASSOC_EVENT_RESET_FAILED: return "RESET_FAILED";
    case SCTP_ASSOC_EVENT_OTHER: return "OTHER";
    default: return "unknown event";
    }
}

const char *sctp_assoc_reason_name(uint32_t reason) {
    switch (reason) {
    case SCTP_ASSOC_REASON_NONE: return "NONE";
    case SCTP_ASSOC_REASON_NO_INIT_ACK: return "NO_INIT_ACK";
    case SCTP_ASSOC_REASON_NO_COOKIE_ACK: return "NO_COOKIE_ACK";
    case SCTP_ASSOC_REASON_CLOSED: return "CLOSED";
    case SCTP_ASSOC_REASON_BUFFER_EXHAUSTED: return "BUFFER_EXHAUSTED";
    case SCTP_ASSOC_REASON_OTHER: return "OTHER";
    case SCTP_ASSOC_REASON_RESET_DENIED: return "RESET_DENIED";
    case SCTP_ASSOC_REASON_RESET_FAILED: return "RESET_FAILED";
    default: return "unknown reason";
    }
}

const char *sctp_assoc_end_name(uint32_t end) {
    switch (end) {
    case SCTP_ASSOC_END_NONE: return "NONE";
    case SCTP_ASSOC_END_CLOSED: return "CLOSED";
    case SCTP_ASSOC_END_ABORTED: return "ABORTED";
    case SCTP_ASSOC_END_SHUT_DOWN: return "SHUT_DOWN";
    case SCTP_ASSOC_END_ABORT_CAME: return "ABORT_CAME";
    case SCTP_ASSOC_END_FAULT: return "FAULT";
    case SCTP_ASSOC_END_BUFFER_EXHAUSTED: return "BUFFER_EXHAUSTED";
    case SCTP_ASSOC_END_SILENT: return "SILENT";
    default: return "unknown end";
    }
}
