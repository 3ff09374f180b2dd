#include "plain_image.h"

#include <string.h>

#include "image.h"
#include "plain_rules.h"

static bool opens_rightly(const uint8_t *image)
{
    return memcmp(image, "SITE", SERVERS_AT) == 0
        && image[WIDTH_AT] <= WIDE && image[RULE_AT] <= RULE_2 && image[FLOOR_AT] <= MOST_SERVERS;
}

static bool is_length_of(uint32_t body, uint32_t width, size_t length)
{
    size_t fixed = body == 0 ? 0 : LOG_AT;
    size_t each = body == 0 ? MARK_BYTES : entry_bytes(width);
    return length >= fixed && length <= fixed + each * MOST_ENTRIES && (length - fixed) % each == 0;
}

/* Where the last body ends, if the contents name bodies that follow each other within the input; else 0. The sum is
 * kept wide and not in the contents' 16 bits, in which a long body would lead back into the image. */
static size_t bodies_end(const uint8_t *image, size_t image_len, uint32_t n)
{
    size_t place = first_body_at(n);
    if (image_len < place) {
        return 0;
    }
    for (uint32_t body = 0; body <= n; body++) {
        const uint8_t *entry = image + contents_entry_at(body);
        size_t length = half(entry + 2);
        if (half(entry) != place || !is_length_of(body, image[WIDTH_AT], length)) {
            return 0;
        }
        place += length;
    }
    return place <= image_len ? place : 0;
}

static bool read_marks(const uint8_t *body, size_t length, uint8_t *table)
{
    memcpy(table + 4 * MARKS, body, length);
    return length == 0 || word(body, length / MARK_BYTES - 1) != 0;
}

static void read_log(const uint8_t *log, uint32_t width, size_t length, uint8_t *row)
{
    put_word(row, LOG_LENGTH, (uint32_t)length);
    if (width == NARROW) {
        memcpy(row + 4 * ENTRIES, log, TERM_BYTES * length);
        return;
    }
    for (size_t index = 0; index < length; index++) {
        put_word(row, ENTRIES + index, word(log, 2 * index));
        put_word(row, BAKES + index, word(log, 2 * index + 1));
    }
}

static bool read_server(const uint8_t *body, uint32_t width, size_t length, uint8_t *row)
{
    put_word(row, ROLE, body[ROLE_AT]);
    put_word(row, TERM, word(body + TERM_AT, 0));
    put_word(row, SET, half(body + SET_AT));
    put_word(row, VERSION, word(body + VERSION_AT, 0));
    put_word(row, CONFIG_TERM, word(body + CONFIG_TERM_AT, 0));
    read_log(body + LOG_AT, width, (length - LOG_AT) / entry_bytes(width), row);
    return body[ZERO_AT] == 0;
}

/* Answers whether every field keeps its rule: the two that a table has no place for are asked as they are read, the
 * others are the table's own rules. */
static bool read_bodies(const uint8_t *image, uint32_t n, uint8_t *table)
{
    memset(table, 0, TABLE_BYTES);
    put_word(table, SERVERS, n);
    put_word(table, RULE, image[RULE_AT]);
    put_word(table, FLOOR, image[FLOOR_AT]);
    bool right = true;
    for (uint32_t body = 0; body <= n; body++) {
        const uint8_t *entry = image + contents_entry_at(body);
        const uint8_t *bytes = image + half(entry);
        size_t length = half(entry + 2);
        right &= body == 0 ? read_marks(bytes, length, table)
                           : read_server(bytes, image[WIDTH_AT], length, table + row_start(body));
    }
    return right && plain_is_whole(table, TABLE_BYTES);
}

uint32_t plain_read(const uint8_t *image, size_t image_len, uint8_t *table, size_t table_len, uint64_t *end)
{
    if (table_len != TABLE_BYTES) {
        return BROKEN_TABLE;
    }
    if (image_len < OPENING_BYTES) {
        return SHORT_IMAGE;
    }
    if (!opens_rightly(image)) {
        return BAD_OPENING;
    }
    uint32_t n = image[SERVERS_AT];
    if (n < 1 || n > MOST_SERVERS) {
        return BAD_NUMBER_OF_SERVERS;
    }
    size_t image_end = bodies_end(image, image_len, n);
    if (image_end == 0) {
        return BAD_CONTENTS;
    }
    uint8_t filled[TABLE_BYTES];
    if (!read_bodies(image, n, filled)) {
        return BAD_FIELD;
    }
    memcpy(table, filled, TABLE_BYTES);
    *end = image_end;
    return TAKEN;
}

uint32_t plain_write(const uint8_t *table, size_t table_len, uint8_t *buffer, size_t buffer_len, uint64_t *end)
{
    if (!plain_is_whole(table, table_len)) {
        return BROKEN_TABLE;
    }
    uint8_t image[MOST_IMAGE_BYTES];
    size_t length = image_of(table, image);
    if (buffer_len < length) {
        return SHORT_BUFFER;
    }
    memcpy(buffer, image, length);
    *end = length;
    return TAKEN;
}
