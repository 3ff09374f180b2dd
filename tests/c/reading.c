#include "reading.h"

#include <stdlib.h>

enum { CANARY = 0xa5 };

/* All that a call may alter, between what it may not. The table stands at an odd address, which a slice may have. */
struct reading {
    uint64_t reply;
    uint8_t before[61];
    uint8_t table[TABLE_BYTES];
    uint8_t behind[67];
    uint64_t before_end;
    uint64_t end;
    uint64_t behind_end;
};

_Static_assert(sizeof(struct reading) == 4 * sizeof(uint64_t) + 61 + TABLE_BYTES + 67, "readings are compared whole");

void fill_figures(struct scene *scene, uint32_t entries, uint32_t positions)
{
    uint32_t terms[MOST_ENTRIES];
    for (uint32_t index = 0; index < MOST_ENTRIES; index++) {
        terms[index] = CEILING - index;
    }
    for (uint32_t server = 1; server <= word(scene->table, SERVERS); server++) {
        give_role(scene, server, server % 2 == 1 ? PRIMARY : SECONDARY, CEILING - server);
        give_configuration(scene, server, only(server), CEILING, CEILING);
        give_log(scene, server, entries, terms);
    }
    for (uint32_t position = 1; position <= positions; position++) {
        bool marked = position % 3 == 2 || position == positions;
        give_mark(scene, position, marked ? CEILING - position : 0);
    }
}

void fill_bakes(struct scene *scene)
{
    for (uint32_t server = 1; server <= word(scene->table, SERVERS); server++) {
        uint8_t *row = scene->table + row_start(server);
        for (uint32_t index = 0; index < word(row, LOG_LENGTH); index++) {
            put_word(row, BAKES + index, UINT32_MAX - MOST_ENTRIES * server - index);
        }
    }
}

struct image image_of_scene(const struct scene *scene)
{
    struct image image;
    image.length = image_of(scene->table, image.bytes);
    return image;
}

struct image wide_image_of_scene(const struct scene *scene)
{
    struct image image;
    image.length = wide_image_of(scene->table, image.bytes);
    return image;
}

uint8_t *contents_entry(struct image *image, uint32_t body)
{
    return image->bytes + contents_entry_at(body);
}

uint8_t *body_of(struct image *image, uint32_t body)
{
    return image->bytes + half(contents_entry(image, body));
}

static struct reading untouched(uint32_t reply)
{
    struct reading reading;
    memset(&reading, CANARY, sizeof reading);
    reading.reply = reply;
    return reading;
}

/* The image is lent at exactly its length, so that a sanitizer sees a look beyond it. */
static struct reading read_image(const struct engine *engine, const uint8_t *bytes, size_t length, size_t table_len,
                                 const char *name)
{
    struct reading reading = untouched(0);
    uint8_t *lent = malloc(length == 0 ? 1 : length);
    if (lent == NULL) {
        abort();
    }
    memcpy(lent, bytes, length);
    reading.reply = engine->read(lent, length, reading.table, table_len, &reading.end);
    check(memcmp(lent, bytes, length) == 0, "%s: the image's bytes are altered", name);
    free(lent);
    return reading;
}

static void check_reading(const struct reading *found, const struct reading *expected, const char *name)
{
    check(found->reply == expected->reply, "%s: read replied %llu, not %llu", name, (unsigned long long)found->reply,
          (unsigned long long)expected->reply);
    check(memcmp(found->table, expected->table, TABLE_BYTES) == 0, "%s: another table after read", name);
    check(found->end == expected->end, "%s: end is %llu, not %llu", name, (unsigned long long)found->end,
          (unsigned long long)expected->end);
    struct reading guards = *found;
    guards.reply = expected->reply;
    guards.end = expected->end;
    memcpy(guards.table, expected->table, TABLE_BYTES);
    check(memcmp(&guards, expected, sizeof guards) == 0, "%s: read wrote beside the table or end", name);
}

void reads_as(const struct engine *engine, const uint8_t *bytes, size_t length, const struct scene *scene,
              uint64_t end, const char *name)
{
    struct reading found = read_image(engine, bytes, length, TABLE_BYTES, name);
    struct reading expected = untouched(0);
    memcpy(expected.table, scene->table, TABLE_BYTES);
    expected.end = end;
    check_reading(&found, &expected, name);
}

void is_not_read(const struct engine *engine, const uint8_t *bytes, size_t length, size_t table_len, uint32_t number,
                 const char *name)
{
    struct reading found = read_image(engine, bytes, length, table_len, name);
    struct reading expected = untouched(number);
    check_reading(&found, &expected, name);
}

void is_bad_site(const struct engine *engine, const uint8_t *bytes, size_t length, uint32_t number, const char *name)
{
    is_not_read(engine, bytes, length, TABLE_BYTES, number, name);
}

void reads_alike(const struct engine *engine, const uint8_t *bytes, size_t length, const char *name)
{
    struct reading found = read_image(engine, bytes, length, TABLE_BYTES, name);
    struct reading expected = read_image(&plain_engine, bytes, length, TABLE_BYTES, name);
    check_reading(&found, &expected, name);
}
