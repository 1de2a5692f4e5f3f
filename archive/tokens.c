/* Tokens as INIT chunks (RFC 4960 section 3.3.2), as signalling exchanges them. */
#include "sctp_assoc.h"

#include <string.h>

#define INIT 1                      /* the chunk's type */
#define FIXED_LENGTH 20             /* of its header, and of the fields that stand before its parameters */
#define PARAMETER_HEADER 4
#define LEAST_WINDOW 1500           /* bytes */
#define SUPPORTED_EXTENSIONS 0x8008 /* the type of this parameter (RFC 5061 section 4.2.7); it lists types of chunks */
#define RE_CONFIG 130
#define FORWARD_TSN 192

static uint32_t number_at(const uint8_t *at, int width) {
    uint32_t value = 0;
    for (int i = 0; i < width; i++)
        value = value << 8 | at[i];
    return value;
}

static void put_number(uint8_t *at, int width, uint32_t value) {
    for (int i = width; i-- > 0; value >>= 8)
        at[i] = (uint8_t)value;
}

/* Whether sctp_assoc_joined takes it. */
static bool is_good(const sctp_assoc_token *token) {
    return token->tag != 0 && token->num_outbound_streams != 0 && token->num_inbound_streams != 0 &&
           token->window >= LEAST_WINDOW;
}

sctp_assoc_code sctp_assoc_token_to_init(const sctp_assoc_token *token, uint8_t *buffer, size_t room, size_t *length) {
    uint32_t extensions = token->forward_tsn ? 2 : 1;
    if (!is_good(token))
        return SCTP_ASSOC_BAD_TOKEN;
    *length = SCTP_ASSOC_MAX_INIT;
    if (room < SCTP_ASSOC_MAX_INIT)
        return SCTP_ASSOC_NO_ROOM;
    memset(buffer, 0, SCTP_ASSOC_MAX_INIT);
    buffer[0] = INIT;
    put_number(buffer + 2, 2, FIXED_LENGTH + PARAMETER_HEADER + extensions); /* padding doesn't count */
    put_number(buffer + 4, 4, token->tag);
    put_number(buffer + 8, 4, token->window);
    put_number(buffer + 12, 2, token->num_outbound_streams);
    put_number(buffer + 14, 2, token->num_inbound_streams);
    put_number(buffer + 16, 4, token->initial_tsn);
    put_number(buffer + 20, 2, SUPPORTED_EXTENSIONS);
    put_number(buffer + 22, 2, PARAMETER_HEADER + extensions);
    buffer[24] = RE_CONFIG;
    if (token->forward_tsn)
        buffer[25] = FORWARD_TSN;
    return SCTP_ASSOC_DONE;
}

/* Whether what stands behind a parameter of this type is read, too: all parameters that RFC 4960 has for an INIT are
 * known, though none of them counts, and of others the highest bit of the type says it (section 3.2.1). */
static bool is_passed_over(uint32_t type) {
    enum { IPV4_ADDRESS = 5, IPV6_ADDRESS = 6, COOKIE_PRESERVATIVE = 9, HOST_NAME = 11, ADDRESS_TYPES = 12 };
    return type >= 0x8000 || type == IPV4_ADDRESS || type == IPV6_ADDRESS || type == COOKIE_PRESERVATIVE ||
           type == HOST_NAME || type == ADDRESS_TYPES;
}

/* Looks for FORWARD TSN among the extensions that the parameters list. False if one of them isn't whole. */
static bool read_parameters(const uint8_t *at, size_t left, bool *forward_tsn) {
    while (left >= PARAMETER_HEADER) {
        uint32_t type = number_at(at, 2);
        size_t length = number_at(at + 2, 2), padded = (length + 3) / 4 * 4;
        if (length < PARAMETER_HEADER || length > left)
            return false;
        if (type == SUPPORTED_EXTENSIONS && memchr(at + PARAMETER_HEADER, FORWARD_TSN, length - PARAMETER_HEADER))
            *forward_tsn = true;
        if (!is_passed_over(type) || padded >= left)
            return true;
        at += padded;
        left -= padded;
    }
    return true;
}

sctp_assoc_code sctp_assoc_token_from_init(const uint8_t *init, size_t length, sctp_assoc_token *token) {
    size_t unpadded = length < FIXED_LENGTH ? 0 : number_at(init + 2, 2);
    if (unpadded < FIXED_LENGTH || unpadded > length || length - unpadded > 3 || init[0] != INIT)
        return SCTP_ASSOC_BAD_INIT;
    sctp_assoc_token told = {
        .tag = number_at(init + 4, 4),
        .initial_tsn = number_at(init + 16, 4),
        .window = number_at(init + 8, 4),
        .num_outbound_streams = (uint16_t)number_at(init + 12, 2),
        .num_inbound_streams = (uint16_t)number_at(init + 14, 2),
    };
    if (!read_parameters(init + FIXED_LENGTH, unpadded - FIXED_LENGTH, &told.forward_tsn))
        return SCTP_ASSOC_BAD_INIT;
    if (!is_good(&told))
        return SCTP_ASSOC_BAD_TOKEN;
    *token = told;
    return SCTP_ASSOC_DONE;
}
