/* Where each figure of a table stands in its slice, for the plain engine and for the tests alike. */
#ifndef LAYOUT_H
#define LAYOUT_H

#include <stdbool.h>
#include <stddef.h>
#include <stdint.h>
#include <string.h>

enum {
    MOST_SERVERS = 16,
    MOST_ENTRIES = 64,
    CEILING = 1000000000,
    ROW_WORDS = 134,
    ROW_BYTES = 4 * ROW_WORDS,
    TABLE_BYTES = (1 + MOST_SERVERS) * ROW_BYTES,
    ACTION_BYTES = 8,
    REPLY_BYTES = 8
};

/* Row 0. */
enum { SERVERS = 0, RULE = 1, FLOOR = 2, SPARE = 3, MARKS = 6, MARKS_END = MARKS + MOST_ENTRIES };

/* The rules by their numbers, in a table and in its image. */
enum { RULE_1, RULE_2 };

/* A server's row. Comparisons of logs read terms alone, so an entry goes by its term, and its bake stands apart. */
enum { ROLE, TERM, SET, VERSION, CONFIG_TERM, LOG_LENGTH, ENTRIES, BAKES = ENTRIES + MOST_ENTRIES };

enum { SECONDARY, PRIMARY };

enum { ELECT = 1, RECONFIGURE, SEND, SPREAD, WRITE, FETCH, ROLL_BACK, COMMIT, STRETCH, LAST_KIND = STRETCH };

/* All kinds name i. */
static inline bool names_j(uint32_t kind)
{
    return kind == SEND || kind == SPREAD || kind == FETCH || kind == ROLL_BACK || kind == STRETCH;
}

/* A stretch has its count where others have a set; a write its bake, which goes on over the two bytes behind. */
static inline bool names_set(uint32_t kind)
{
    return kind == ELECT || kind == RECONFIGURE || kind == COMMIT || kind == STRETCH;
}

static inline size_t row_start(uint32_t server)
{
    return (size_t)server * ROW_BYTES;
}

/* A load and a store are then one instruction each; assembled from bytes, gcc finds that out in some places only. */
_Static_assert(__BYTE_ORDER__ == __ORDER_LITTLE_ENDIAN__, "words of a slice are copied as they stand");

static inline uint32_t word(const uint8_t *row, size_t column)
{
    uint32_t value;
    memcpy(&value, row + 4 * column, sizeof value);
    return value;
}

static inline void put_word(uint8_t *row, size_t column, uint32_t value)
{
    memcpy(row + 4 * column, &value, sizeof value);
}

/* A reply as one number: its low byte is the number of the refusal, 0 for taken, and above it stands what it shows. */
static inline uint32_t number_of(uint64_t reply)
{
    return (uint32_t)(reply & 0xff);
}

/* Where the server stands in it that refusals 8, 9, 10 and 23 show. */
enum { SERVER_SHIFT = 8 };

static inline uint32_t server_in(uint64_t reply)
{
    return (uint32_t)(reply >> SERVER_SHIFT & 0xff);
}

static inline uint32_t at_server(uint32_t number, uint32_t server)
{
    return number | server << SERVER_SHIFT;
}

/* Where it has how many entries a stretch has copied. */
enum { COPIED_SHIFT = 16 };

static inline uint32_t copied_in(uint64_t reply)
{
    return (uint32_t)(reply >> COPIED_SHIFT & 0xff);
}

/* Where the two majorities stand in it that refusal 13 shows under rule 2. */
enum { OLD_SHIFT = 32, NEW_SHIFT = 48 };

static inline uint32_t set_in(uint64_t reply, uint32_t shift)
{
    return (uint32_t)(reply >> shift & 0xffff);
}

static inline uint64_t reply_at(const uint8_t *replies, size_t piece)
{
    uint64_t reply;
    memcpy(&reply, replies + REPLY_BYTES * piece, sizeof reply);
    return reply;
}

static inline void put_reply(uint8_t *replies, size_t piece, uint64_t reply)
{
    memcpy(replies + REPLY_BYTES * piece, &reply, sizeof reply);
}

static inline void put_action(uint8_t *bytes, uint32_t kind, uint32_t i, uint32_t j, uint32_t set)
{
    bytes[0] = (uint8_t)kind;
    bytes[1] = (uint8_t)i;
    bytes[2] = (uint8_t)j;
    bytes[3] = 0;
    put_word(bytes, 1, set);
}

static inline uint32_t only(uint32_t server)
{
    return UINT32_C(1) << (server - 1);
}

static inline uint32_t all_servers(uint32_t n)
{
    return (UINT32_C(1) << n) - 1;
}

static inline uint32_t lowest_server(uint32_t set)
{
    return (uint32_t)__builtin_ctz(set) + 1;
}

static inline uint32_t last_entry(const uint8_t *row)
{
    uint32_t length = word(row, LOG_LENGTH);
    return length == 0 ? 0 : word(row, ENTRIES + length - 1);
}

#endif
