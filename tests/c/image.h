/* Where each figure of a table stands in its image, for the plain reader and for the tests alike. */
#ifndef IMAGE_H
#define IMAGE_H

#include <stdbool.h>
#include <stddef.h>
#include <stdint.h>

#include "layout.h"

enum {
    SERVERS_AT = 4,
    WIDTH_AT = 5,
    RULE_AT = 6,
    FLOOR_AT = 7,
    OPENING_BYTES = 8,
    CONTENTS_ENTRY_BYTES = 4,
    MARK_BYTES = 4,
    MOST_MARKS_BYTES = MARK_BYTES * MOST_ENTRIES
};

/* How wide entries are, by the number in the image: a term alone, or a term and a bake. */
enum { NARROW, WIDE };

enum { TERM_BYTES = 4, BAKE_BYTES = 4, WIDE_ENTRY_BYTES = TERM_BYTES + BAKE_BYTES };

static inline size_t entry_bytes(uint32_t width)
{
    return width == WIDE ? WIDE_ENTRY_BYTES : TERM_BYTES;
}

/* A server's body. */
enum { ROLE_AT = 0, ZERO_AT = 1, SET_AT = 2, TERM_AT = 4, VERSION_AT = 8, CONFIG_TERM_AT = 12, LOG_AT = 16 };

enum {
    MOST_SERVER_BYTES = LOG_AT + WIDE_ENTRY_BYTES * MOST_ENTRIES,
    MOST_IMAGE_BYTES = OPENING_BYTES + CONTENTS_ENTRY_BYTES * (1 + MOST_SERVERS) + MOST_MARKS_BYTES
        + MOST_SERVERS * MOST_SERVER_BYTES,
    /* What rehearse takes: an image and the actions behind it. */
    MOST_INPUT_BYTES = 65536
};

static inline uint32_t half(const uint8_t *bytes)
{
    return (uint32_t)bytes[0] | (uint32_t)bytes[1] << 8;
}

static inline void put_half(uint8_t *bytes, uint32_t value)
{
    bytes[0] = (uint8_t)value;
    bytes[1] = (uint8_t)(value >> 8);
}

/* Body 0 is the marks', body s server s's. */
static inline size_t contents_entry_at(uint32_t body)
{
    return OPENING_BYTES + CONTENTS_ENTRY_BYTES * (size_t)body;
}

static inline size_t first_body_at(uint32_t n)
{
    return contents_entry_at(n + 1);
}

bool has_bakes(const uint8_t *table);

/* Writes the image of a table that is not broken as a writer has to; answers its length, MOST_IMAGE_BYTES at most. */
size_t image_of(const uint8_t *table, uint8_t *image);

/* The same with entries that are wide even where no bake asks for it. */
size_t wide_image_of(const uint8_t *table, uint8_t *image);

#endif
