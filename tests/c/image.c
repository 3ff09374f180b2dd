#include "image.h"

bool has_bakes(const uint8_t *table)
{
    static const uint8_t zeros[4 * MOST_ENTRIES];
    for (uint32_t server = 1; server <= word(table, SERVERS); server++) {
        const uint8_t *row = table + row_start(server);
        if (memcmp(row + 4 * BAKES, zeros, 4 * word(row, LOG_LENGTH)) != 0) {
            return true;
        }
    }
    return false;
}

static size_t put_marks(const uint8_t *table, uint8_t *body)
{
    size_t positions = MOST_ENTRIES;
    while (positions > 0 && word(table, MARKS + positions - 1) == 0) {
        positions--;
    }
    memcpy(body, table + 4 * MARKS, MARK_BYTES * positions);
    return MARK_BYTES * positions;
}

static size_t put_log(const uint8_t *row, uint32_t width, uint8_t *log)
{
    uint32_t length = word(row, LOG_LENGTH);
    if (width == NARROW) {
        memcpy(log, row + 4 * ENTRIES, TERM_BYTES * length);
        return TERM_BYTES * length;
    }
    for (uint32_t index = 0; index < length; index++) {
        put_word(log, 2 * index, word(row, ENTRIES + index));
        put_word(log, 2 * index + 1, word(row, BAKES + index));
    }
    return WIDE_ENTRY_BYTES * length;
}

static size_t put_server(const uint8_t *row, uint32_t width, uint8_t *body)
{
    body[ROLE_AT] = (uint8_t)word(row, ROLE);
    body[ZERO_AT] = 0;
    put_half(body + SET_AT, word(row, SET));
    put_word(body + TERM_AT, 0, word(row, TERM));
    put_word(body + VERSION_AT, 0, word(row, VERSION));
    put_word(body + CONFIG_TERM_AT, 0, word(row, CONFIG_TERM));
    return LOG_AT + put_log(row, width, body + LOG_AT);
}

static size_t put_image(const uint8_t *table, uint32_t width, uint8_t *image)
{
    const uint8_t opening[OPENING_BYTES] = {'S', 'I', 'T', 'E'};
    uint32_t n = word(table, SERVERS);
    memcpy(image, opening, OPENING_BYTES);
    image[SERVERS_AT] = (uint8_t)n;
    image[WIDTH_AT] = (uint8_t)width;
    image[RULE_AT] = (uint8_t)word(table, RULE);
    image[FLOOR_AT] = (uint8_t)word(table, FLOOR);
    size_t offset = first_body_at(n);
    for (uint32_t body = 0; body <= n; body++) {
        size_t length = body == 0 ? put_marks(table, image + offset)
                                  : put_server(table + row_start(body), width, image + offset);
        put_half(image + contents_entry_at(body), (uint32_t)offset);
        put_half(image + contents_entry_at(body) + 2, (uint32_t)length);
        offset += length;
    }
    return offset;
}

size_t image_of(const uint8_t *table, uint8_t *image)
{
    return put_image(table, has_bakes(table) ? WIDE : NARROW, image);
}

size_t wide_image_of(const uint8_t *table, uint8_t *image)
{
    return put_image(table, WIDE, image);
}
