/* Tokens as INIT chunks: what is written is what a client sends, what is read is what a peer may send, and two ends
 * that are joined by what was written and read talk to each other. The chunks were spelled apart from the library. */
#include "spelled.h"

/* What comes before the parameters of an INIT: initiate tag 7, window 131,072, 1024 and 2048 streams, first TSN 9. */
#define FIELDS "0000000700020000" "04000800" "00000009"

static const sctp_assoc_token whole = {7, 9, 131072, 1024, 2048, true}, bare = {7, 9, 131072, 1024, 2048, false};
static sctp_assoc_token token;

/* Reads the INIT of this hex, from a block that is no longer. */
static sctp_assoc_code read_init(const char *hex) {
    size_t length = spell(spelled, hex);
    uint8_t *init = malloc(length ? length : 1);
    CHECK(init);
    memcpy(init, spelled, length);
    sctp_assoc_code code = sctp_assoc_token_from_init(init, length, &token);
    free(init);
    return code;
}

static bool is_read_as(const char *hex, sctp_assoc_token wanted) {
    memset(&token, 0x77, sizeof token);
    return done(read_init(hex)) && token.tag == wanted.tag && token.initial_tsn == wanted.initial_tsn &&
           token.window == wanted.window && token.num_outbound_streams == wanted.num_outbound_streams &&
           token.num_inbound_streams == wanted.num_inbound_streams && token.forward_tsn == wanted.forward_tsn;
}

/* A refusal leaves the token as it was. */
static bool refuses(const char *hex, sctp_assoc_code code) {
    sctp_assoc_token before;
    memset(&token, 0x77, sizeof token);
    before = token;
    return read_init(hex) == code && memcmp(&token, &before, sizeof token) == 0;
}

/* Whether the INIT of a token is this one. */
static bool is_written_as(sctp_assoc_token written, const char *hex) {
    uint8_t init[SCTP_ASSOC_MAX_INIT];
    size_t length = 0, wanted = spell(spelled, hex);
    return done(sctp_assoc_token_to_init(&written, init, sizeof init, &length)) && length == wanted &&
           memcmp(init, spelled, length) == 0;
}

/* ---- Writing ---- */

static void an_init_is_written(void) {
    CHECK(is_written_as(whole, "0100001a" FIELDS "8008000682c00000"));
    CHECK(is_written_as(bare, "01000019" FIELDS "8008000582000000"));
}

static void it_is_that_of_a_client(void) {
    sctp_assoc client = SCTP_ASSOC_EMPTY;
    sctp_assoc_config config = default_config();
    sctp_assoc_identity named = identity(3);
    uint8_t init[SCTP_ASSOC_MAX_INIT];
    size_t length, written;
    config.max_receive_buffer_size = 70000;
    config.max_num_outbound_streams = 10;
    config.max_num_inbound_streams = 300;
    CHECK(done(sctp_assoc_client(&client, &config, PAYLOAD_SIZE, &named, 0)));
    CHECK(done(sctp_assoc_poll_transmit(&client, 0, spelled, sizeof spelled, &length)));
    CHECK(done(sctp_assoc_make_token(&config, named.tag, named.initial_tsn, &token)));
    CHECK(done(sctp_assoc_token_to_init(&token, init, sizeof init, &written)));
    CHECK(length == 12 + written && memcmp(spelled + 12, init, written) == 0);
    release(&client);
}

static void without_room_nothing_is_written(void) {
    uint8_t init[SCTP_ASSOC_MAX_INIT] = {0x77};
    size_t length = 0;
    CHECK(sctp_assoc_token_to_init(&whole, NULL, 0, &length) == SCTP_ASSOC_NO_ROOM && length == SCTP_ASSOC_MAX_INIT);
    CHECK(sctp_assoc_token_to_init(&whole, init, length - 1, &length) == SCTP_ASSOC_NO_ROOM && init[0] == 0x77);
}

static void a_token_that_no_peer_takes_is_not_written(void) {
    static const sctp_assoc_token refused[] = {
        {0, 9, 131072, 1024, 2048, true},
        {7, 9, 1499, 1024, 2048, true},
        {7, 9, 131072, 0, 2048, true},
        {7, 9, 131072, 1024, 0, true},
    };
    for (size_t i = 0; i < sizeof refused / sizeof *refused; i++) {
        uint8_t init[SCTP_ASSOC_MAX_INIT] = {0x77};
        size_t length = 5;
        CHECK(sctp_assoc_token_to_init(&refused[i], init, sizeof init, &length) == SCTP_ASSOC_BAD_TOKEN);
        CHECK(init[0] == 0x77 && length == 5);
    }
}

/* ---- Reading ---- */

static void an_init_is_read(void) {
    CHECK(is_read_as("01000014" FIELDS, bare));
    CHECK(is_read_as("0100001a" FIELDS "8008000682c0", whole));
    CHECK(is_read_as("0100001a" FIELDS "8008000682c00000", whole));
    CHECK(is_read_as("0100001c" FIELDS "8008000682c00000", whole)); /* its length counts the padding */
    CHECK(is_read_as("01ff001a" FIELDS "8008000682c0ffff", whole)); /* flags and padding count for nothing */
    CHECK(is_read_as("01000019" FIELDS "8008000582000000", bare));
    CHECK(is_read_as("0100001e" FIELDS "8008000440080006c0820000", bare)); /* the list of the second type is none */
    CHECK(is_read_as("01000022" FIELDS "800800058200000080080006c0ff0000", whole)); /* two lists */
}

/* Of the types of parameters that are not known the highest bit says whether the reading goes on. */
static void parameters_are_passed_over(void) {
    CHECK(is_read_as("01000022" FIELDS "c0000004" "80010004" "8008000682c00000", whole));
    CHECK(is_read_as("01000022" FIELDS "800200055500000080080006c0820000", whole));
    CHECK(is_read_as("0100002a" FIELDS "0005000801020304" "000c000800050006" "8008000682c00000", whole));
    CHECK(is_read_as("01000022" FIELDS "0009000800000001" "8008000682c00000", whole));
    CHECK(is_read_as("0100001e" FIELDS "7fff0004" "8008000682c00000", bare));
    CHECK(is_read_as("0100001e" FIELDS "40010004" "8008000682c00000", bare));
    CHECK(is_read_as("01000024" FIELDS "8008000682c00000" "40010004" "ffff0001", whole));
}

static void what_is_no_init_is_refused(void) {
    static const char *const refused[] = {
        "",
        "01",
        "01000014000000070002000004000800000000",           /* cut short */
        "0200001a" FIELDS "8008000682c00000",               /* INIT ACK */
        "01000013" FIELDS,                                  /* shorter than its fields */
        "01000000" FIELDS,
        "0100001b" FIELDS "8008000682c0",                   /* longer than the bytes */
        "ffff001a" FIELDS "8008000682c00000",
        "0100001a" FIELDS "8008000682c0000000000000",       /* something stands behind it */
        "0100001a" FIELDS "8008000782c00000",               /* a parameter ends behind it */
        "0100001a" FIELDS "8008000382c00000",               /* or before its own header does */
        "0100001c" FIELDS "c000000080080006",
        "01000024" FIELDS "8008000682c00000" "8001000900000000",
    };
    for (size_t i = 0; i < sizeof refused / sizeof *refused; i++)
        CHECK(refuses(tried = refused[i], SCTP_ASSOC_BAD_INIT));
    tried = "";
    CHECK(sctp_assoc_token_from_init(NULL, 0, &token) == SCTP_ASSOC_BAD_INIT);
}

static void what_no_token_may_have_is_refused(void) {
    CHECK(refuses("01000014" "0000000000020000" "04000800" "00000009", SCTP_ASSOC_BAD_TOKEN));
    CHECK(refuses("01000014" "00000007000005db" "04000800" "00000009", SCTP_ASSOC_BAD_TOKEN));
    CHECK(refuses("01000014" "0000000700020000" "00000800" "00000009", SCTP_ASSOC_BAD_TOKEN));
    CHECK(refuses("01000014" "0000000700020000" "04000000" "00000009", SCTP_ASSOC_BAD_TOKEN));
    CHECK(done(read_init("01000014" "00000007000005dc" "00010001" "00000000")));
}

/* Each bit of an INIT is changed, and each byte to 0 and to 255. What is read of it then joins an end. */
static void what_is_read_can_be_joined(void) {
    size_t read = 0, length = spell(spelled, "01000022" FIELDS "c0000004" "80010004" "8008000682c00000");
    for (size_t change = 0; change < 10 * length; change++) {
        uint8_t *init = malloc(length), *changed = init + change / 10;
        CHECK(init);
        memcpy(init, spelled, length);
        *changed = change % 10 < 8 ? *changed ^ (uint8_t)(1 << change % 10) : change % 10 == 8 ? 0 : 255;
        sctp_assoc_code code = sctp_assoc_token_from_init(init, length, &token);
        free(init);
        CHECK(code == SCTP_ASSOC_DONE || code == SCTP_ASSOC_BAD_INIT || code == SCTP_ASSOC_BAD_TOKEN);
        if (code != SCTP_ASSOC_DONE)
            continue;
        sctp_assoc end = SCTP_ASSOC_EMPTY;
        sctp_assoc_config config = default_config();
        CHECK(done(sctp_assoc_joined(&end, &config, PAYLOAD_SIZE, &whole, &token)));
        release(&end);
        read++;
    }
    CHECK(read > 10 * 16 && read < 10 * length); /* most changes to the fields are taken; a length is refused */
}

/* ---- Both ---- */

static void a_token_goes_round(void) {
    static const sctp_assoc_token tokens[] = {
        {1, 0, 1500, 1, 1, false},
        {UINT32_MAX, UINT32_MAX, UINT32_MAX, UINT16_MAX, UINT16_MAX, true},
        {0x01020304, 0x05060708, 0x090a0b0c, 0x0d0e, 0x0f10, true},
    };
    for (size_t i = 0; i < sizeof tokens / sizeof *tokens; i++) {
        char hex[2 * SCTP_ASSOC_MAX_INIT + 1];
        uint8_t init[SCTP_ASSOC_MAX_INIT];
        size_t length;
        CHECK(done(sctp_assoc_token_to_init(&tokens[i], init, sizeof init, &length)));
        for (size_t k = 0; k < length; k++)
            sprintf(hex + 2 * k, "%02x", init[k]);
        CHECK(is_read_as(hex, tokens[i]));
    }
}

static void say_hello(sctp_assoc *from, sctp_assoc *to, uint16_t stream) {
    size_t length;
    uint32_t type;
    CHECK(done(sctp_assoc_open_stream(from, stream, SCTP_ASSOC_PPID_STRING)));
    CHECK(done(sctp_assoc_write(from, stream, SCTP_ASSOC_PPID_OF_STREAM, (const uint8_t *)"hello", 5)));
    pass_on(from, to, 0);
    CHECK(done(sctp_assoc_read(to, stream, spelled, sizeof spelled, &length, &type)));
    CHECK(length == 5 && memcmp(spelled, "hello", 5) == 0 && type == SCTP_ASSOC_PPID_STRING);
}

/* Each end has its own token as it made it, and the peer's as it came. */
static void two_ends_are_joined_by_inits(void) {
    sctp_assoc ends[2] = {SCTP_ASSOC_EMPTY, SCTP_ASSOC_EMPTY};
    sctp_assoc_config config = default_config();
    sctp_assoc_token own[2], came[2];
    for (int end = 0; end < 2; end++) {
        sctp_assoc_identity drawn;
        uint8_t init[SCTP_ASSOC_MAX_INIT];
        size_t length;
        CHECK(done(sctp_assoc_random_identity(&drawn)));
        CHECK(done(sctp_assoc_make_token(&config, drawn.tag, drawn.initial_tsn, &own[end])));
        CHECK(done(sctp_assoc_token_to_init(&own[end], init, sizeof init, &length)));
        CHECK(done(sctp_assoc_token_from_init(init, length, &came[end])));
    }
    for (int end = 0; end < 2; end++)
        CHECK(done(sctp_assoc_joined(&ends[end], &config, PAYLOAD_SIZE, &own[end], &came[!end])));
    say_hello(&ends[0], &ends[1], 1);
    say_hello(&ends[1], &ends[0], 2);
    free_both(ends);
}

int main(void) {
    TRY(an_init_is_written());
    TRY(it_is_that_of_a_client());
    TRY(without_room_nothing_is_written());
    TRY(a_token_that_no_peer_takes_is_not_written());
    TRY(an_init_is_read());
    TRY(parameters_are_passed_over());
    TRY(what_is_no_init_is_refused());
    TRY(what_no_token_may_have_is_refused());
    TRY(what_is_read_can_be_joined());
    TRY(a_token_goes_round());
    TRY(two_ends_are_joined_by_inits());
    puts("tokens: ok");
    return 0;
}
