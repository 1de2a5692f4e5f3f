/* The ways into each state, and what follows of a packet there: each chunk in each state, and what no honest peer
 * sends. RFC 4960, RFC 3758 and RFC 6525 ask for it, but for what docs/CONFORMANCE.md and docs/DECISIONS.md list. The
 * rows were made apart from the library. */
#ifndef HOSTILE_ROWS_H
#define HOSTILE_ROWS_H

/* A name, whether it is a client or a server, which state it is in, and what leads there. All but `new` had an INIT, so
 * that they know the peer, and their cookie was issued. `narrow` is a server whose receive buffer has 1500 bytes. What
 * is written is in flight from TSN 100 on. The lost ones were established, but for that by an INIT. */
struct way {
    const char *name, *kind, *state, *steps;
};

static const struct way ways[] = {
    {"new", "server", "Closed", ""},
    {"Closed", "server", "Closed", "to-0 INIT"},
    {"CookieWait", "client", "CookieWait", "to-0 INIT"},
    {"CookieEchoed", "client", "CookieEchoed", "to-0 INIT; to-2 INIT_ACK"},
    {"Established", "server", "Established", "to-0 INIT; to-2 COOKIE_ECHO"},
    {"Sending", "server", "Established", "to-0 INIT; to-2 COOKIE_ECHO; write 3 2 1"},
    {"ShutdownPending", "server", "ShutdownPending", "to-0 INIT; to-2 COOKIE_ECHO; write 3 2 1; shutdown"},
    {"ShutdownSent", "server", "ShutdownSent", "to-0 INIT; to-2 COOKIE_ECHO; shutdown"},
    {"ShutdownReceived", "server", "ShutdownReceived", "to-0 INIT; to-2 COOKIE_ECHO; write 3 2 1; to-2 SHUTDOWN"},
    {"ShutdownAckSent", "server", "ShutdownAckSent", "to-0 INIT; to-2 COOKIE_ECHO; to-2 SHUTDOWN"},
    {"lost-by-SACK", "server", "Closed", "to-0 INIT; to-2 COOKIE_ECHO; write 1; to-2 SACK_99_2_TO_2"},
    {"lost-by-INIT", "client", "Closed", "to-0 INIT; to-0 INIT_OF_TAG_0"},
    {"lost-by-ABORT", "server", "Closed", "to-0 INIT; to-2 COOKIE_ECHO; to-2 ABORT"},
    {"lost-by-SHUTDOWN", "server", "Closed", "to-0 INIT; to-2 COOKIE_ECHO; to-2 SHUTDOWN; to-2 SHUTDOWN_COMPLETE"},
    {"lost-by-full-buffer", "narrow", "Closed", "to-0 INIT; to-2 COOKIE_ECHO; to-2 FIRST_OF_1501"},
    {"lost-by-close", "server", "Closed", "to-0 INIT; to-2 COOKIE_ECHO; close"},
    {"narrow", "narrow", "Established", "to-0 INIT; to-2 COOKIE_ECHO"},
    {"narrow-Closed", "narrow", "Closed", "to-0 INIT"},
};

/* The packets of the table, and the states that it has each of them in. */
static const char *const packets[] = {
    "to-0 INIT",
    "to-2 INIT_ACK HEARTBEAT",
    "to-2 COOKIE_ECHO HEARTBEAT",
    "to-2 OTHER_COOKIE_ECHO HEARTBEAT",
    "to-2 COOKIE_ACK HEARTBEAT",
    "to-2 DATA HEARTBEAT",
    "to-2 FORWARD_TSN HEARTBEAT",
    "to-2 I_FORWARD_TSN HEARTBEAT",
    "to-2 RECONFIG HEARTBEAT",
    "to-2 RECONFIG_OTHERWISE HEARTBEAT",
    "to-2 HEARTBEAT",
    "to-2 SACK_99 HEARTBEAT",
    "to-2 SACK_102 HEARTBEAT",
    "to-2 SHUTDOWN HEARTBEAT",
    "to-2 SHUTDOWN_ACK HEARTBEAT",
    "to-2 SHUTDOWN_COMPLETE HEARTBEAT",
    "to-2 ABORT HEARTBEAT",
    "to-2 ABORT_OTHERWISE HEARTBEAT",
    "to-2 ERROR HEARTBEAT",
    "to-2 HEARTBEAT_ACK HEARTBEAT",
    "to-2 TYPE_63 HEARTBEAT",
    "to-2 TYPE_132 HEARTBEAT",
};

#define STATES_OF_TABLE 10 /* of `ways`, the first ones */

/* What comes, in which states, and what follows. */
struct row {
    const char *steps, *states, *follows;
};

/* Sections 3.3, 5 and 9.2 of RFC 4960. HEARTBEAT behind a chunk shows whether the packet goes on: it ends with a fault,
 * which closes nothing in Closed. No SACK goes out before Established, and none in ShutdownAckSent. An INIT past the
 * handshake does not come to the association, where it would be a fault. */
static const struct row table[] = {
    {"to-0 INIT", "new", "sends INIT_ACK, point 499"},
    {"to-0 INIT", "Closed CookieWait CookieEchoed", "sends INIT_ACK"},
    {"to-0 INIT", "Established", "repeated INIT"},
    {"to-0 INIT", "Sending ShutdownPending ShutdownReceived", "repeated INIT"},
    {"to-0 INIT", "ShutdownSent ShutdownAckSent", "repeated INIT"},
    {"to-2 INIT_ACK HEARTBEAT", "CookieWait", "sends COOKIE_ECHO, sends HEARTBEAT_ACK, is CookieEchoed"},
    {"to-2 INIT_ACK HEARTBEAT", "new Closed CookieEchoed Established Sending", "sends HEARTBEAT_ACK"},
    {"to-2 INIT_ACK HEARTBEAT", "ShutdownPending ShutdownReceived ShutdownSent ShutdownAckSent", "sends HEARTBEAT_ACK"},
    {"to-2 COOKIE_ECHO HEARTBEAT", "new", "sends HEARTBEAT_ACK"},
    {"to-2 COOKIE_ECHO HEARTBEAT", "Closed", "sends COOKIE_ACK, sends HEARTBEAT_ACK, connected, is Established"},
    {"to-2 COOKIE_ECHO HEARTBEAT", "CookieWait CookieEchoed",
     "sends COOKIE_ACK, sends HEARTBEAT_ACK, connected, is Established, no timer"},
    {"to-2 COOKIE_ECHO HEARTBEAT", "Established Sending", "sends COOKIE_ACK, sends HEARTBEAT_ACK"},
    {"to-2 COOKIE_ECHO HEARTBEAT", "ShutdownPending ShutdownReceived", "sends COOKIE_ACK, sends HEARTBEAT_ACK"},
    {"to-2 COOKIE_ECHO HEARTBEAT", "ShutdownSent", "sends COOKIE_ACK, sends HEARTBEAT_ACK, sends SHUTDOWN"},
    {"to-2 COOKIE_ECHO HEARTBEAT", "ShutdownAckSent", "sends COOKIE_ACK, sends HEARTBEAT_ACK, sends SHUTDOWN_ACK"},
    {"to-2 OTHER_COOKIE_ECHO HEARTBEAT", "new Closed CookieWait CookieEchoed Established Sending",
     "sends HEARTBEAT_ACK"},
    {"to-2 OTHER_COOKIE_ECHO HEARTBEAT", "ShutdownPending ShutdownReceived ShutdownSent ShutdownAckSent",
     "sends HEARTBEAT_ACK"},
    {"to-2 COOKIE_ACK HEARTBEAT", "CookieEchoed", "sends HEARTBEAT_ACK, connected, is Established, no timer"},
    {"to-2 COOKIE_ACK HEARTBEAT", "new Closed CookieWait Established Sending", "sends HEARTBEAT_ACK"},
    {"to-2 COOKIE_ACK HEARTBEAT", "ShutdownPending ShutdownReceived ShutdownSent ShutdownAckSent",
     "sends HEARTBEAT_ACK"},
    {"to-2 DATA HEARTBEAT", "new", "sends HEARTBEAT_ACK, opened 3, datagram, readable 3, DATA 1"},
    {"to-2 DATA HEARTBEAT", "Closed CookieWait CookieEchoed",
     "sends HEARTBEAT_ACK, opened 3, datagram, readable 3, point 500, DATA 1"},
    {"to-2 DATA HEARTBEAT", "ShutdownAckSent", "sends HEARTBEAT_ACK, opened 3, datagram, readable 3, DATA 1"},
    {"to-2 DATA HEARTBEAT", "Established Sending ShutdownPending ShutdownReceived ShutdownSent",
     "sends HEARTBEAT_ACK, sends SACK, opened 3, datagram, readable 3, point 500, DATA 1"},
    {"to-2 FORWARD_TSN HEARTBEAT", "new", "sends ERROR, sends HEARTBEAT_ACK"},
    {"to-2 FORWARD_TSN HEARTBEAT", "Closed Established", "sends HEARTBEAT_ACK, opened 3, timer, point 502"},
    {"to-2 FORWARD_TSN HEARTBEAT", "CookieWait CookieEchoed Sending", "sends HEARTBEAT_ACK, opened 3, point 502"},
    {"to-2 FORWARD_TSN HEARTBEAT", "ShutdownPending ShutdownReceived ShutdownSent",
     "sends HEARTBEAT_ACK, opened 3, point 502"},
    {"to-2 FORWARD_TSN HEARTBEAT", "ShutdownAckSent", "sends HEARTBEAT_ACK, opened 3"},
    {"to-2 I_FORWARD_TSN HEARTBEAT", "new", "sends ERROR, sends HEARTBEAT_ACK"},
    {"to-2 I_FORWARD_TSN HEARTBEAT", "Closed Established", "sends HEARTBEAT_ACK, opened 3, timer, point 502"},
    {"to-2 I_FORWARD_TSN HEARTBEAT", "CookieWait CookieEchoed Sending", "sends HEARTBEAT_ACK, opened 3, point 502"},
    {"to-2 I_FORWARD_TSN HEARTBEAT", "ShutdownPending ShutdownReceived ShutdownSent",
     "sends HEARTBEAT_ACK, opened 3, point 502"},
    {"to-2 I_FORWARD_TSN HEARTBEAT", "ShutdownAckSent", "sends HEARTBEAT_ACK, opened 3"},
    {"to-2 RECONFIG HEARTBEAT", "new", "sends RECONFIG in progress, sends HEARTBEAT_ACK"},
    {"to-2 RECONFIG HEARTBEAT", "Closed Established",
     "sends RECONFIG of 3, sends RECONFIG performed, sends HEARTBEAT_ACK, timer"},
    {"to-2 RECONFIG HEARTBEAT", "CookieWait CookieEchoed Sending",
     "sends RECONFIG of 3, sends RECONFIG performed, sends HEARTBEAT_ACK"},
    {"to-2 RECONFIG HEARTBEAT", "ShutdownPending ShutdownReceived ShutdownSent ShutdownAckSent",
     "sends RECONFIG of 3, sends RECONFIG performed, sends HEARTBEAT_ACK"},
    {"to-2 RECONFIG_OTHERWISE HEARTBEAT", "new Closed", "nothing"},
    {"to-2 RECONFIG_OTHERWISE HEARTBEAT", "Established", "lost closed, is Closed"},
    {"to-2 RECONFIG_OTHERWISE HEARTBEAT", "Sending ShutdownPending ShutdownReceived",
     "ended 7, lost closed, is Closed, no timer, buffered 0"},
    {"to-2 RECONFIG_OTHERWISE HEARTBEAT", "CookieWait CookieEchoed ShutdownSent ShutdownAckSent",
     "lost closed, is Closed, no timer"},
    {"to-2 HEARTBEAT", "new Closed CookieWait CookieEchoed Established Sending", "sends HEARTBEAT_ACK"},
    {"to-2 HEARTBEAT", "ShutdownPending ShutdownReceived ShutdownSent ShutdownAckSent", "sends HEARTBEAT_ACK"},
    {"to-2 SACK_99 HEARTBEAT", "Established Sending ShutdownPending ShutdownReceived", "sends HEARTBEAT_ACK, SACKs 1"},
    {"to-2 SACK_99 HEARTBEAT", "new Closed CookieWait CookieEchoed ShutdownSent ShutdownAckSent",
     "sends HEARTBEAT_ACK"},
    {"to-2 SACK_102 HEARTBEAT", "Sending", "sends HEARTBEAT_ACK, low 7, no timer, SACKs 1, buffered 0"},
    {"to-2 SACK_102 HEARTBEAT", "ShutdownPending",
     "sends HEARTBEAT_ACK, sends SHUTDOWN, low 7, is ShutdownSent, SACKs 1, buffered 0"},
    {"to-2 SACK_102 HEARTBEAT", "ShutdownReceived",
     "sends HEARTBEAT_ACK, sends SHUTDOWN_ACK, low 7, is ShutdownAckSent, SACKs 1, buffered 0"},
    {"to-2 SACK_102 HEARTBEAT", "Established", "lost closed, is Closed, SACKs 1"},
    {"to-2 SACK_102 HEARTBEAT", "new Closed CookieWait CookieEchoed ShutdownSent ShutdownAckSent",
     "sends HEARTBEAT_ACK"},
    {"to-2 SHUTDOWN HEARTBEAT", "Established", "sends HEARTBEAT_ACK, sends SHUTDOWN_ACK, is ShutdownAckSent, timer"},
    {"to-2 SHUTDOWN HEARTBEAT", "Sending", "sends HEARTBEAT_ACK, is ShutdownReceived"},
    {"to-2 SHUTDOWN HEARTBEAT", "ShutdownSent", "sends HEARTBEAT_ACK, sends SHUTDOWN_ACK, is ShutdownAckSent"},
    {"to-2 SHUTDOWN HEARTBEAT", "new Closed CookieWait CookieEchoed", "sends HEARTBEAT_ACK"},
    {"to-2 SHUTDOWN HEARTBEAT", "ShutdownPending ShutdownReceived ShutdownAckSent", "sends HEARTBEAT_ACK"},
    {"to-2 SHUTDOWN_ACK HEARTBEAT", "ShutdownSent ShutdownAckSent",
     "sends HEARTBEAT_ACK, sends SHUTDOWN_COMPLETE, lost closed, is Closed, no timer"},
    {"to-2 SHUTDOWN_ACK HEARTBEAT", "new Closed CookieWait CookieEchoed Established Sending", "sends HEARTBEAT_ACK"},
    {"to-2 SHUTDOWN_ACK HEARTBEAT", "ShutdownPending ShutdownReceived", "sends HEARTBEAT_ACK"},
    {"to-2 SHUTDOWN_COMPLETE HEARTBEAT", "ShutdownAckSent", "lost closed, is Closed, no timer"},
    {"to-2 SHUTDOWN_COMPLETE HEARTBEAT", "new Closed CookieWait CookieEchoed Established Sending",
     "sends HEARTBEAT_ACK"},
    {"to-2 SHUTDOWN_COMPLETE HEARTBEAT", "ShutdownPending ShutdownReceived ShutdownSent", "sends HEARTBEAT_ACK"},
    {"to-2 ABORT HEARTBEAT", "new Closed", "nothing"},
    {"to-2 ABORT HEARTBEAT", "Established", "lost closed, is Closed"},
    {"to-2 ABORT HEARTBEAT", "Sending ShutdownPending ShutdownReceived",
     "ended 7, lost closed, is Closed, no timer, buffered 0"},
    {"to-2 ABORT HEARTBEAT", "CookieWait CookieEchoed ShutdownSent ShutdownAckSent",
     "lost closed, is Closed, no timer"},
    {"to-2 ABORT_OTHERWISE HEARTBEAT", "new Closed", "nothing"},
    {"to-2 ABORT_OTHERWISE HEARTBEAT", "Established", "lost closed, is Closed"},
    {"to-2 ABORT_OTHERWISE HEARTBEAT", "Sending ShutdownPending ShutdownReceived",
     "ended 7, lost closed, is Closed, no timer, buffered 0"},
    {"to-2 ABORT_OTHERWISE HEARTBEAT", "CookieWait CookieEchoed ShutdownSent ShutdownAckSent",
     "lost closed, is Closed, no timer"},
    {"to-2 ERROR HEARTBEAT", "new Closed CookieWait CookieEchoed Established Sending", "sends HEARTBEAT_ACK"},
    {"to-2 ERROR HEARTBEAT", "ShutdownPending ShutdownReceived ShutdownSent ShutdownAckSent",
     "sends HEARTBEAT_ACK"},
    {"to-2 HEARTBEAT_ACK HEARTBEAT", "new Closed CookieWait CookieEchoed Established Sending", "sends HEARTBEAT_ACK"},
    {"to-2 HEARTBEAT_ACK HEARTBEAT", "ShutdownPending ShutdownReceived ShutdownSent ShutdownAckSent",
     "sends HEARTBEAT_ACK"},
    {"to-2 TYPE_63 HEARTBEAT", "new Closed", "nothing"},
    {"to-2 TYPE_63 HEARTBEAT", "Established", "lost closed, is Closed"},
    {"to-2 TYPE_63 HEARTBEAT", "Sending ShutdownPending ShutdownReceived",
     "ended 7, lost closed, is Closed, no timer, buffered 0"},
    {"to-2 TYPE_63 HEARTBEAT", "CookieWait CookieEchoed ShutdownSent ShutdownAckSent",
     "lost closed, is Closed, no timer"},
    {"to-2 TYPE_132 HEARTBEAT", "new Closed CookieWait CookieEchoed Established Sending", "sends HEARTBEAT_ACK"},
    {"to-2 TYPE_132 HEARTBEAT", "ShutdownPending ShutdownReceived ShutdownSent ShutdownAckSent",
     "sends HEARTBEAT_ACK"},
};

/* The last TSN in order where no SACK tells it: a TSN is new if it is 1 to 65,535 past it, and DATA that is not new is
 * not told; and a request to reset streams is performed once its last TSN has come (RFC 6525 section 5.2.2). */
static const struct row last_tsns[] = {
    {"to-2 DATA; to-2 TOO_FAR_PAST_500; to-2 FARTHEST_PAST_500", "ShutdownAckSent",
     "opened 3, datagram, readable 3, opened 4, datagram, readable 4, DATA 3"},
    {"to-2 FORWARD_TSN; to-2 TOO_FAR_PAST_502; to-2 FARTHEST_PAST_502", "ShutdownAckSent",
     "opened 3, opened 4, datagram, readable 4, DATA 2"},
    {"to-2 I_FORWARD_TSN; to-2 TOO_FAR_PAST_502; to-2 FARTHEST_PAST_502", "ShutdownAckSent",
     "opened 3, opened 4, datagram, readable 4, DATA 2"},
    {"to-2 DATA; to-2 TOO_FAR_PAST_0; to-2 FARTHEST_PAST_0", "new",
     "opened 3, datagram, readable 3, opened 4, datagram, readable 4, DATA 3"},
    {"to-2 FORWARD_TSN; to-2 TOO_FAR_PAST_0; to-2 FARTHEST_PAST_0", "new",
     "sends ERROR, opened 4, datagram, readable 4, DATA 2"},
    {"to-2 FIRST_OF_1501; to-2 RESET_AT_500; to-2 RESET_AT_501", "narrow-Closed",
     "sends ABORT, opened 3, datagram, sends RECONFIG of 9, sends RECONFIG performed, sends RECONFIG in progress, "
     "timer, DATA 1"},
};

/* Packets that are refused as a whole: an INIT under a tag, or not alone, and a port 0 (RFC 4960 sections 8.5.1, 6.10
 * and 3.1). INIT and INIT ACK with values that are forbidden are faults, in each state (sections 3.3.2 and 3.3.3). A
 * State Cookie counts if each byte of it is as it was issued. */
static const struct row greetings[] = {
    {"to-2 INIT", "new Closed Established", "other tag"},
    {"to-0 INIT HEARTBEAT", "new Closed", "nothing"},
    {"to-0 INIT HEARTBEAT", "Established", "repeated INIT"},
    {"to-0 HEARTBEAT INIT", "new Closed Established", "other tag"},
    {"to-2 HEARTBEAT INIT", "new Closed Established", "nothing"},
    {"from-port-0 HEARTBEAT", "Closed Established", "nothing"},
    {"to-0 INIT_OF_TAG_0", "new Closed", "nothing"},
    {"to-0 INIT_OF_TAG_0", "CookieWait", "lost closed, is Closed, no timer"},
    {"to-0 INIT_OF_TAG_0", "Established", "other INIT"},
    {"to-0 INIT_WITHOUT_STREAMS", "new Closed", "nothing"},
    {"to-0 INIT_WITHOUT_STREAMS", "CookieWait", "lost closed, is Closed, no timer"},
    {"to-0 INIT_OF_SMALL_WINDOW", "new Closed", "nothing"},
    {"to-0 INIT_OF_SMALL_WINDOW", "CookieWait", "lost closed, is Closed, no timer"},
    {"to-2 INIT_ACK_WITHOUT_COOKIE HEARTBEAT", "CookieWait", "lost closed, is Closed, no timer"},
    {"to-2 INIT_ACK_WITHOUT_COOKIE HEARTBEAT", "Closed CookieEchoed Established", "sends HEARTBEAT_ACK"},
    {"to-2 INIT_ACK_OF_TAG_0 HEARTBEAT", "Closed", "nothing"},
    {"to-2 INIT_ACK_OF_TAG_0 HEARTBEAT", "CookieWait", "lost closed, is Closed, no timer"},
    {"to-2 INIT_ACK_OF_TAG_0 HEARTBEAT", "Established", "lost closed, is Closed"},
    {"to-2 CHANGED_COOKIE_ECHO HEARTBEAT", "Closed CookieWait CookieEchoed Established", "sends HEARTBEAT_ACK"},
    {"to-2 SHORT_COOKIE_ECHO HEARTBEAT", "Closed CookieWait CookieEchoed Established", "sends HEARTBEAT_ACK"},
    {"to-2 LONG_COOKIE_ECHO HEARTBEAT", "Closed CookieWait CookieEchoed Established", "sends HEARTBEAT_ACK"},
};

/* Packets with a chunk whose form is broken are refused as a whole: what stands before it does not count. What a value
 * has past its form is not read (RFC 4960 section 3.2). */
static const struct row forms[] = {
    {"to-2 DATA LENGTH_3", "Closed Established", "nothing"},
    {"to-2 DATA LENGTH_0", "Closed Established", "nothing"},
    {"to-2 DATA LENGTH_PAST_END", "Closed Established", "nothing"},
    {"to-2 DATA SHORT_DATA", "Closed Established", "nothing"},
    {"to-2 DATA SHORT_INIT_ACK", "CookieWait Established", "nothing"},
    {"to-2 DATA SHORT_SACK", "Established", "nothing"},
    {"to-2 DATA SACK_LACKS_A_BLOCK", "Established Sending", "nothing"},
    {"to-2 DATA SACK_LACKS_A_DUPLICATE", "Established Sending", "nothing"},
    {"to-2 DATA SHORT_SHUTDOWN", "Established", "nothing"},
    {"to-2 DATA SHORT_FORWARD", "Established", "nothing"},
    {"to-2 DATA EMPTY_RECONFIG", "Established", "nothing"},
    {"to-2 DATA SHORT_REQUEST", "Established", "nothing"},
    {"to-2 DATA PARAMETER_LENGTH_3", "Established", "nothing"},
    {"to-2 DATA PARAMETER_PAST_END", "Established", "nothing"},
    {"to-2 DATA CAUSE_LENGTH_3", "Established", "nothing"},
    {"to-2 DATA ONE_BYTE", "Established", "nothing"},
    {"to-2", "Closed Established", "nothing"},
    {"to-2 LONG_SHUTDOWN", "Established", "sends SHUTDOWN_ACK, is ShutdownAckSent, timer"},
    {"to-2 LONG_COOKIE_ACK", "CookieEchoed", "connected, is Established, no timer"},
    {"to-2 RESETS_AND_MORE HEARTBEAT", "Established",
     "sends RECONFIG of 9, sends RECONFIG performed, sends RECONFIG performed, sends HEARTBEAT_ACK, timer"},
    {"to-2 HEARTBEAT_OTHERWISE HEARTBEAT", "Established", "sends HEARTBEAT_ACK"},
    {"to-2 ERROR ERROR; to-2 ERROR", "Established", "nothing"},
    {"to-2 TYPE_63 TYPE_63; to-2 TYPE_63", "Established", "lost closed, is Closed"},
};

/* SACKs, of which messages of three, two and one byte are in flight from TSN 100 on (RFC 4960 sections 3.3.4 and
 * 6.2.1). */
static const struct row sacks[] = {
    {"to-2 SACK_99_3_TO_2 HEARTBEAT", "Sending", "sends HEARTBEAT_ACK, SACKs 1"},
    {"to-2 SACK_99_65535_TO_0 HEARTBEAT", "Sending", "sends HEARTBEAT_ACK, SACKs 1"},
    {"to-2 SACK_99_1_TO_1_3_TO_2 HEARTBEAT", "Sending", "sends HEARTBEAT_ACK, SACKs 1, buffered 3"},
    {"to-2 SACK_99_3_TO_3_1_TO_2_2_TO_3 HEARTBEAT", "Sending", "sends HEARTBEAT_ACK, low 7, SACKs 1, buffered 0"},
    {"to-2 SACK_99_DUPLICATES HEARTBEAT", "Sending", "sends HEARTBEAT_ACK, SACKs 1"},
    {"to-2 SACK_100 HEARTBEAT", "Sending", "sends HEARTBEAT_ACK, SACKs 1, buffered 3"},
    {"to-2 SACK_100; to-2 SACK_99 HEARTBEAT", "Sending", "sends HEARTBEAT_ACK, SACKs 2, buffered 3"},
    {"to-2 SACK_98 HEARTBEAT", "Sending", "sends HEARTBEAT_ACK, SACKs 1"},
    {"to-2 SACK_HALF_AHEAD HEARTBEAT", "Sending", "sends HEARTBEAT_ACK, SACKs 1"},
    {"to-2 SACK_PAST_HALF_AHEAD HEARTBEAT", "Sending", "sends HEARTBEAT_ACK, SACKs 1"},
    {"to-2 SACK_PAST_HALF_AHEAD_4_TO_4 HEARTBEAT", "Sending", "sends HEARTBEAT_ACK, SACKs 1"},
    {"to-2 SACK_99_0_TO_0 HEARTBEAT", "Sending", "ended 7, lost closed, is Closed, no timer, SACKs 1, buffered 0"},
    {"to-2 SACK_99_0_TO_2 HEARTBEAT", "Sending", "ended 7, lost closed, is Closed, no timer, SACKs 1, buffered 0"},
    {"to-2 SACK_99_3_TO_4 HEARTBEAT", "Sending", "ended 7, lost closed, is Closed, no timer, SACKs 1, buffered 0"},
    {"to-2 SACK_99_4_TO_4 HEARTBEAT", "Sending", "ended 7, lost closed, is Closed, no timer, SACKs 1, buffered 0"},
    {"to-2 SACK_99_1_TO_65535 HEARTBEAT", "Sending", "ended 7, lost closed, is Closed, no timer, SACKs 1, buffered 0"},
    {"to-2 SACK_103 HEARTBEAT", "Sending", "ended 7, lost closed, is Closed, no timer, SACKs 1, buffered 0"},
    {"to-2 SACK_BELOW_HALF_AHEAD HEARTBEAT", "Sending",
     "ended 7, lost closed, is Closed, no timer, SACKs 1, buffered 0"},
    {"to-2 SACK_99_0_TO_0 HEARTBEAT", "Established", "lost closed, is Closed, SACKs 1"},
    {"write 1; to-2 SACK_99_2_TO_2 HEARTBEAT", "Established", "sends DATA, ended 7, lost closed, is Closed, SACKs 1"},
    {"to-2 SACK_100 ABORT DATA", "Sending", "ended 7, lost closed, is Closed, no timer, SACKs 1, buffered 0"},
    {"to-2 ABORT DATA", "Established", "lost closed, is Closed"},
};

/* FORWARD TSN far ahead of all DATA, behind it, and of one stream twice; DATA behind that (RFC 3758 section 3.6). */
static const struct row forwards[] = {
    {"to-2 FORWARD_BELOW_HALF_AHEAD HEARTBEAT", "Established", "sends HEARTBEAT_ACK, timer, point 2147484146"},
    {"to-2 FORWARD_HALF_AHEAD HEARTBEAT", "Established", "sends HEARTBEAT_ACK, timer, point 2147484147"},
    {"to-2 FORWARD_PAST_HALF_AHEAD HEARTBEAT", "Established", "sends HEARTBEAT_ACK, sends SACK"},
    {"to-2 FORWARD_499 HEARTBEAT", "Established", "sends HEARTBEAT_ACK, sends SACK"},
    {"to-2 FORWARD_BELOW_HALF_AHEAD; to-2 DATA", "Established", "sends SACK, point 2147484146, DATA 1"},
    {"to-2 FORWARD_BELOW_HALF_AHEAD; to-2 DATA_FAR", "Established",
     "sends SACK, opened 3, datagram, readable 3, point 2147484147, DATA 1"},
    {"to-2 FORWARD_500_TWICE HEARTBEAT", "Established", "sends HEARTBEAT_ACK, opened 3, timer, point 500"},
    {"to-2 FIRST_500; to-2 FORWARD_TSN", "Established", "opened 3, datagram, sends SACK, point 502, DATA 1"},
    {"to-2 FIRST_500; to-2 FORWARD_TSN; to-2 LAST_501", "Established",
     "opened 3, datagram, sends SACK, sends SACK, point 502, DATA 2"},
};

/* Requests to reset streams of which one is there, or none (RFC 6525 section 5.2), which are answered by a request for
 * all that they list; before an INIT, which says the number that the next one has; and of a stream whose unread rest
 * FORWARD TSN drops. */
static const struct row resets[] = {
    {"to-2 RESET_OF_UNKNOWN HEARTBEAT", "Established",
     "sends RECONFIG of 9 10, sends RECONFIG performed, sends HEARTBEAT_ACK, timer"},
    {"to-2 RESET_ALL_BEFORE_DATA HEARTBEAT", "Established", "sends RECONFIG performed, sends HEARTBEAT_ACK"},
    {"to-2 RESET_OLD HEARTBEAT", "Established", "sends RECONFIG performed, sends HEARTBEAT_ACK"},
    {"to-2 RESET_OUT_OF_TURN HEARTBEAT", "Established", "sends RECONFIG bad number, sends HEARTBEAT_ACK"},
    {"to-2 RESET_TOO_EARLY; to-2 RESET_NEXT", "Established", "sends RECONFIG in progress, sends RECONFIG already"},
    {"to-2 RESET_TOO_EARLY; to-2 RESET_TOO_EARLY", "Established",
     "sends RECONFIG in progress, sends RECONFIG in progress"},
    {"to-2 RESPONSE_TO_NOTHING HEARTBEAT", "Established", "sends HEARTBEAT_ACK"},
    {"to-2 RESET_AND_RESPONSE HEARTBEAT", "Established",
     "sends RECONFIG of 9, sends RECONFIG performed, sends HEARTBEAT_ACK, timer"},
    {"to-2 TWO_RESETS HEARTBEAT", "Established",
     "sends RECONFIG of 9, sends RECONFIG performed, sends RECONFIG performed, sends HEARTBEAT_ACK, timer"},
    {"to-2 DATA; to-2 RESET_TWICE; to-2 RESET_TWICE", "Established",
     "sends SACK, opened 3, datagram, readable 3, sends RECONFIG of 3 9, sends RECONFIG performed, "
     "sends RECONFIG performed, timer, point 500, DATA 1"},
    {"to-2 DATA; read 3; to-2 RESET_TWICE", "Established",
     "sends SACK, opened 3, datagram, readable 3, reads 1, sends RECONFIG of 3 9, sends RECONFIG performed, ended 3, "
     "finished 3, timer, point 500, DATA 1"},
    {"open 5; to-2 DATA; read 3; to-2 RESET_ALL", "Established",
     "sends SACK, opened 3, datagram, readable 3, reads 1, sends RECONFIG of all, sends RECONFIG performed, ended 3, "
     "finished 3, ended 5, finished 5, timer, point 500, DATA 1"},
    {"to-2 RECONFIG; to-0 INIT; to-2 RECONFIG", "new",
     "sends RECONFIG in progress, sends INIT_ACK, sends RECONFIG of 3, sends RECONFIG performed, timer, point 499"},
    {"to-2 RECONFIG; to-0 INIT; to-2 DATA_499", "new",
     "sends RECONFIG in progress, sends INIT_ACK, sends RECONFIG of 3, sends RECONFIG performed, timer, point 499, "
     "DATA 1"},
    {"to-2 RESET_BEFORE_INIT; to-0 INIT; to-2 DATA; read 3; to-2 RESET_TWICE", "new",
     "sends RECONFIG of 3, sends RECONFIG performed, sends INIT_ACK, opened 3, datagram, readable 3, reads 1, "
     "sends RECONFIG performed, ended 3, finished 3, timer, point 500, DATA 1"},
    {"to-2 LOOSE_FIRST_500; to-2 RESET_TWICE; to-2 FORWARD_501; read 3", "Established",
     "opened 3, datagram, sends RECONFIG of 3 9, sends RECONFIG performed, sends SACK, reads none, finished 3, "
     "ended 3, timer, point 501, DATA 1"},
};

/* DATA whose pieces contradict each other, DATA at both ends of what is new, DATA without a byte, and a piece that
 * fills the buffer for good. */
static const struct row pieces[] = {
    {"to-2 FIRST_500 LAST_501 HEARTBEAT", "Established",
     "sends HEARTBEAT_ACK, opened 3, datagram, datagram, readable 3, timer, point 501, DATA 2"},
    {"to-2 FIRST_500 FIRST_501 HEARTBEAT", "Established",
     "opened 3, datagram, ended 3, lost closed, is Closed, DATA 2"},
    {"to-2 FIRST_500 FIRST_501 HEARTBEAT", "Closed", "opened 3, datagram, point 500, DATA 2"},
    {"to-2 LAST_501 MIDDLE_502 HEARTBEAT", "Established",
     "opened 3, datagram, ended 3, lost closed, is Closed, DATA 2"},
    {"to-2 MIDDLE_502 LAST_501 HEARTBEAT", "Established",
     "opened 3, datagram, ended 3, lost closed, is Closed, DATA 2"},
    {"to-2 FIRST_501 FIRST_500 HEARTBEAT", "Established",
     "opened 3, datagram, ended 3, lost closed, is Closed, DATA 2"},
    {"to-2 FIRST_500 LAST_501_OF_TYPE_51 HEARTBEAT", "Established",
     "opened 3, datagram, ended 3, lost closed, is Closed, DATA 2"},
    {"to-2 LOOSE_FIRST_500 LOOSE_LAST_501", "Established",
     "opened 3, datagram, datagram, readable 3, timer, point 501, DATA 2"},
    {"to-2 LOOSE_FIRST_500 LOOSE_FIRST_501 HEARTBEAT", "Established",
     "opened 3, datagram, ended 3, lost closed, is Closed, DATA 2"},
    {"to-2 DATA_499", "Established", "sends SACK, DATA 1"},
    {"to-2 DATA; to-2 DATA", "Established",
     "sends SACK, opened 3, datagram, readable 3, sends SACK, point 500, DATA 2"},
    {"to-2 DATA_FARTHEST", "Established", "sends SACK, opened 3, datagram, readable 3, DATA 1"},
    {"to-2 DATA_TOO_FAR", "Established", "sends SACK, DATA 1"},
    {"to-2 DATA_EMPTY; read 3", "Established",
     "sends SACK, opened 3, datagram, readable 3, reads 0, point 500, DATA 1"},
    {"to-2 FIRST_OF_1501 HEARTBEAT", "narrow",
     "sends ABORT, opened 3, datagram, ended 3, lost exhausted, is Closed, DATA 1"},
    {"to-2 FIRST_OF_1501 HEARTBEAT", "narrow-Closed", "sends ABORT, opened 3, datagram, DATA 1"},
};

/* A packet of one chunk comes cut after each byte before that chunk's end, under the sum of the whole and under its
 * own. None of it changes anything, wherever the whole counts: a chunk that is longer than what is left breaks the
 * packet's form (RFC 4960 section 3.2). */
static const struct row cuts[] = {
    {"cut to-0 INIT", "Closed Established", "nothing"},
    {"cut to-2 INIT_ACK", "CookieWait", "nothing"},
    {"cut to-2 COOKIE_ECHO", "Closed Established", "nothing"},
    {"cut to-2 COOKIE_ACK", "CookieEchoed", "nothing"},
    {"cut to-2 DATA", "Closed Established", "nothing"},
    {"cut to-2 FORWARD_TSN", "Closed Established", "nothing"},
    {"cut to-2 I_FORWARD_TSN", "Closed Established", "nothing"},
    {"cut to-2 RECONFIG", "Closed Established", "nothing"},
    {"cut to-2 RECONFIG_OTHERWISE", "Established", "nothing"},
    {"cut to-2 HEARTBEAT", "Closed Established", "nothing"},
    {"cut to-2 SACK_102", "Established Sending ShutdownPending", "nothing"},
    {"cut to-2 SACK_99_3_TO_3_1_TO_2_2_TO_3", "Sending ShutdownReceived", "nothing"},
    {"cut to-2 SHUTDOWN", "Established ShutdownSent", "nothing"},
    {"cut to-2 SHUTDOWN_ACK", "ShutdownSent ShutdownAckSent", "nothing"},
    {"cut to-2 SHUTDOWN_COMPLETE", "ShutdownAckSent", "nothing"},
    {"cut to-2 ABORT", "Established Sending", "nothing"},
    {"cut to-2 ERROR", "Established Sending", "nothing"},
    {"cut to-2 HEARTBEAT_ACK", "Established", "nothing"},
    {"cut to-2 TYPE_63", "Established", "nothing"},
};

#endif
