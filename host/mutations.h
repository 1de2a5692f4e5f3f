/* Mutations of a datagram: bits, numbers, lengths, cuts, additions, and chunks that are repeated, swapped, left out and
 * made up. */
#ifndef MUTATIONS_H
#define MUTATIONS_H

#include "support.h"

#define MAX_LENGTH 4096
#define MAX_CHUNKS 64
#define COUNT_OF(array) (sizeof(array) / sizeof *(array))

struct datagram {
    size_t length;
    uint8_t bytes[MAX_LENGTH];
};

static uint64_t random_state;

static uint32_t pick(uint32_t limit) {
    random_state ^= random_state << 13;
    random_state ^= random_state >> 7;
    random_state ^= random_state << 17;
    return (uint32_t)(random_state >> 16) % limit;
}

/* ---- Fields of a packet, all in network byte order but the checksum ---- */

static uint32_t get(const uint8_t *at, int width) {
    uint32_t value = 0;
    for (int i = 0; i < width; i++)
        value = value << 8 | at[i];
    return value;
}

static void put(uint8_t *at, int width, uint32_t value) {
    for (int i = 0; i < width; i++)
        at[i] = (uint8_t)(value >> 8 * (width - 1 - i));
}

/* Where the chunk after this one begins. */
static size_t next_chunk(const uint8_t *packet, size_t at) {
    uint32_t length = get(packet + at + 2, 2);
    return at + (length < 4 ? 4 : (length + 3) / 4 * 4);
}

/* Where the chunks begin, and after the last of them where the packet ends. Answers how many chunks there are. */
static size_t find_chunks(const struct datagram *packet, size_t places[MAX_CHUNKS + 1]) {
    size_t count = 0, at = 12;
    for (; at + 4 <= packet->length && count < MAX_CHUNKS; at = next_chunk(packet->bytes, at))
        places[count++] = at;
    places[count] = at < packet->length ? at : packet->length;
    return count;
}

/* ---- Parts that are added, left out and moved ---- */

static void append(struct datagram *packet, const uint8_t *more, size_t length) {
    if (packet->length + length <= MAX_LENGTH) {
        memcpy(packet->bytes + packet->length, more, length);
        packet->length += length;
    }
}

static void append_random(struct datagram *packet, size_t length) {
    for (size_t i = 0; i < length; i++) {
        uint8_t byte = (uint8_t)pick(256);
        append(packet, &byte, 1);
    }
}

static void pad(struct datagram *packet) {
    while (packet->length % 4 != 0)
        append(packet, (const uint8_t *)"", 1);
}

/* A chunk that nobody sent, with numbers near those that are in use. */
static void append_made_up(struct datagram *packet, uint32_t tsn) {
    static const uint8_t kinds[] = {0, 1, 2, 3, 4, 5, 6, 7, 8, 9, 10, 11, 12, 13, 14, 15, 64, 128, 130, 192, 193, 194};
    uint8_t chunk[4 + 64];
    size_t length = 4 + pick(pick(2) ? 65 : 21);
    chunk[0] = kinds[pick(COUNT_OF(kinds))];
    chunk[1] = (uint8_t)pick(8);
    put(chunk + 2, 2, (uint32_t)length);
    for (size_t i = 4; i < sizeof chunk; i++)
        chunk[i] = (uint8_t)(pick(3) ? pick(4) : pick(256));
    put(chunk + 4, 4, tsn + pick(9) - 4);
    if (pick(2)) { /* a parameter, of the kinds that are known */
        static const uint16_t parameters[] = {1, 7, 13, 14, 15, 16, 17, 18, 0x8008, 0xc000};
        put(chunk + 4, 2, parameters[pick(COUNT_OF(parameters))]);
        put(chunk + 6, 2, length < 8 ? 4 : (uint32_t)length - 4);
        put(chunk + 8, 4, tsn + pick(5) - 2);
    }
    pad(packet);
    append(packet, chunk, length);
}

static void repeat_chunk(struct datagram *packet, size_t from, size_t to) {
    uint8_t chunk[MAX_LENGTH];
    memcpy(chunk, packet->bytes + from, to - from);
    for (uint32_t copies = 1 + pick(pick(4) ? 3 : 40); copies > 0; copies--) {
        pad(packet);
        append(packet, chunk, to - from);
    }
}

static void swap_chunks(struct datagram *packet, const size_t *places, size_t first, size_t second) {
    struct datagram old = *packet;
    if (first >= second)
        return;
    packet->length = places[first];
    append(packet, old.bytes + places[second], places[second + 1] - places[second]);
    append(packet, old.bytes + places[first + 1], places[second] - places[first + 1]);
    append(packet, old.bytes + places[first], places[first + 1] - places[first]);
    append(packet, old.bytes + places[second + 1], old.length - places[second + 1]);
}

static void leave_out(struct datagram *packet, size_t from, size_t to) {
    memmove(packet->bytes + from, packet->bytes + to, packet->length - to);
    packet->length -= to - from;
}

/* ---- One mutation ---- */

static void write_number(struct datagram *packet, size_t at, int width) {
    static const uint32_t numbers[] = {0,      1,      2,      3,          4,          5,         8,
                                       16,     17,     0x7fff, 0x8000,     0xffff,     0x10000,   0x7fffffff,
                                       0x80000000, 0xfffffffe, 0xffffffff};
    if (at + (size_t)width <= packet->length)
        put(packet->bytes + at, width, numbers[pick(COUNT_OF(numbers))]);
}

/* Of bytes, wherever they lie; the length of the packet is not 0. */
static void mutate_bytes(struct datagram *packet) {
    size_t at = pick((uint32_t)packet->length);
    switch (pick(6)) {
    case 0:
        packet->bytes[at] ^= (uint8_t)(1 << pick(8));
        break;
    case 1:
        packet->bytes[at] = (uint8_t)pick(256);
        break;
    case 2:
        write_number(packet, at / 2 * 2, 2);
        break;
    case 3:
        write_number(packet, at / 4 * 4, 4);
        break;
    case 4:
        packet->length = at;
        break;
    default:
        append_random(packet, 1 + pick(pick(8) ? 64 : 2000));
    }
}

/* Of the chunk that begins here and ends there. */
static void mutate_chunk(struct datagram *packet, size_t from, size_t to) {
    uint8_t *chunk = packet->bytes + from;
    switch (pick(8)) {
    case 0:
        chunk[0] = (uint8_t)(pick(4) ? pick(16) : pick(256));
        break;
    case 1:
        chunk[1] = (uint8_t)pick(16);
        break;
    case 2:
        write_number(packet, from + 2, 2);
        break;
    case 3:
        put(chunk + 2, 2, get(chunk + 2, 2) + pick(17) - 8);
        break;
    case 4: /* the length of a parameter or of what lies there */
        write_number(packet, from + 6 + pick(6) * 2, 2);
        break;
    case 5: /* a TSN beside the one that is there */
        if (from + 8 <= to)
            put(chunk + 4, 4, get(chunk + 4, 4) + (pick(8) ? pick(9) - 4 : pick(70000)));
        break;
    case 6:
        repeat_chunk(packet, from, to);
        break;
    default:
        leave_out(packet, from, to);
    }
}

/* `other` is a packet whose chunks may be added, `tsn` one that is in use. */
static void mutate_once(struct datagram *packet, const struct datagram *other, uint32_t tsn) {
    size_t places[MAX_CHUNKS + 1], count = find_chunks(packet, places);
    uint32_t choice = pick(8);
    if (choice == 0) {
        append_made_up(packet, tsn);
    } else if (choice == 1 && other->length > 12) {
        pad(packet);
        append(packet, other->bytes + 12, other->length - 12);
    } else if (choice == 2 && count > 1) {
        swap_chunks(packet, places, pick((uint32_t)count), pick((uint32_t)count));
    } else if (choice < 5 && count > 0) {
        size_t k = pick((uint32_t)count);
        mutate_chunk(packet, places[k], places[k + 1]);
    } else if (packet->length > 0) {
        mutate_bytes(packet);
    }
}

#endif
