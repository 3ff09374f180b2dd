/* Images that are written: byte for byte, at the end of a buffer that is just long enough, and refused with nothing written. */
#include <stdio.h>
#include <stdlib.h>

#include "generate.h"
#include "plain_rules.h"
#include "reading.h"

enum { CANARY = 0xa5, DRAWN_TABLES = 5000, MOST_BUFFER_BYTES = MOST_IMAGE_BYTES + 64 };

/* A call on a buffer that is lent at exactly its length, so that a sanitizer sees a look beyond it. The reply, every byte and the
 * end have to be these. */
static void writes(const struct engine *engine, const uint8_t *table, size_t table_len, size_t buffer_len,
                   uint32_t number, const struct image *image, const char *name)
{
    uint8_t expected[MOST_BUFFER_BYTES];
    uint8_t *buffer = malloc(buffer_len == 0 ? 1 : buffer_len);
    uint8_t *lent = malloc(table_len == 0 ? 1 : table_len);
    uint64_t end = 77;
    if (buffer == NULL || lent == NULL) {
        abort();
    }
    memset(expected, CANARY, sizeof expected);
    memset(buffer, CANARY, buffer_len);
    memcpy(lent, table, table_len);
    if (number == 0) {
        memcpy(expected, image->bytes, image->length);
    }
    uint32_t reply = engine->write(lent, table_len, buffer, buffer_len, &end);
    check(reply == number, "%s: write replied %u, not %u", name, reply, number);
    check(memcmp(buffer, expected, buffer_len) == 0, "%s: another buffer after write", name);
    check(end == (number == 0 ? image->length : 77), "%s: end is %llu", name, (unsigned long long)end);
    check(memcmp(lent, table, table_len) == 0, "%s: write altered the table", name);
    free(buffer);
    free(lent);
}

static void writes_image(const struct engine *engine, const struct scene *scene, const char *name)
{
    struct image image = image_of_scene(scene);
    const size_t more[] = {0, 1, 63};
    for (size_t which = 0; which < sizeof more / sizeof *more; which++) {
        writes(engine, scene->table, TABLE_BYTES, image.length + more[which], 0, &image, name);
    }
    reads_as(engine, image.bytes, image.length, scene, image.length, name);
    const size_t short_by[] = {1, 2, image.length};
    for (size_t which = 0; which < sizeof short_by / sizeof *short_by; which++) {
        writes(engine, scene->table, TABLE_BYTES, image.length - short_by[which], 35, &image, name);
    }
}

static void fresh_and_full_tables(const struct engine *engine)
{
    const uint32_t counts[] = {0, 1, 64};
    for (uint32_t n = 1; n <= MOST_SERVERS; n++) {
        for (size_t log = 0; log < sizeof counts / sizeof *counts; log++) {
            for (size_t mark = 0; mark < sizeof counts / sizeof *counts; mark++) {
                char name[80];
                snprintf(name, sizeof name, "write %u servers, %u entries, %u marks", n, counts[log], counts[mark]);
                struct scene scene = fresh_scene(engine, n, all_servers(n));
                fill_figures(&scene, counts[log], counts[mark]);
                writes_image(engine, &scene, name);
                fill_bakes(&scene);
                writes_image(engine, &scene, name);
                give_rule(&scene, RULE_2);
                give_floor(&scene, MOST_SERVERS);
                writes_image(engine, &scene, name);
            }
        }
    }
}

/* 1 comes before 35: the buffer is too short, too. */
static void broken_tables(const struct engine *engine)
{
    struct scene scene = fresh_scene(engine, 3, 7);
    struct image image = image_of_scene(&scene);
    const size_t lengths[] = {0, 4, TABLE_BYTES - 1};
    for (size_t which = 0; which < sizeof lengths / sizeof *lengths; which++) {
        writes(engine, scene.table, lengths[which], MOST_BUFFER_BYTES, 1, &image, "write of a slice of another length");
        writes(engine, scene.table, lengths[which], 0, 1, &image, "write of such a slice into no buffer");
    }
    give_rule(&scene, 2);
    writes(engine, scene.table, TABLE_BYTES, MOST_BUFFER_BYTES, 1, &image, "write of a table with no rule");
    give_rule(&scene, RULE_2);
    give_floor(&scene, MOST_SERVERS + 1);
    writes(engine, scene.table, TABLE_BYTES, MOST_BUFFER_BYTES, 1, &image, "write of a table with no floor");
    give_floor(&scene, MOST_SERVERS);
    give_role(&scene, 2, 2, 1);
    writes(engine, scene.table, TABLE_BYTES, MOST_BUFFER_BYTES, 1, &image, "write of a broken table");
    writes(engine, scene.table, TABLE_BYTES, 0, 1, &image, "write of a broken table into no buffer");
    give_role(&scene, 2, PRIMARY, 1);
    GIVE_BAKES(&scene, 3, 1);
    writes(engine, scene.table, TABLE_BYTES, MOST_BUFFER_BYTES, 1, &image, "write of a table with a bake of no entry");
}

/* Wherever it stands, and whichever byte of it is not 0, one bake makes all entries wide. */
static void one_bake_alone(const struct engine *engine)
{
    const uint32_t positions[] = {1, 2, 63, 64};
    for (uint32_t server = 1; server <= MOST_SERVERS; server++) {
        for (size_t which = 0; which < sizeof positions / sizeof *positions; which++) {
            for (uint32_t bake = 1; bake != 0; bake <<= 8) {
                struct scene scene = fresh_scene(engine, MOST_SERVERS, 1);
                fill_figures(&scene, MOST_ENTRIES, 0);
                put_word(scene.table + row_start(server), BAKES + positions[which] - 1, bake);
                struct image image = image_of_scene(&scene);
                check(image.bytes[WIDTH_AT] == 1 && image.length == 8524, "one bake makes an image of 8524 bytes");
                writes_image(engine, &scene, "write of a table with one bake");
            }
        }
    }
}

/* Read, and written back in fewer bytes: the one image that does not come back as it was. */
static void needlessly_wide(const struct engine *engine, const struct scene *scene)
{
    struct image wide = wide_image_of_scene(scene);
    reads_as(engine, wide.bytes, wide.length, scene, wide.length, "wide entries and no bake");
    struct image narrow = image_of_scene(scene);
    check(narrow.bytes[WIDTH_AT] == 0, "no bake makes entries narrow");
    writes_image(engine, scene, "write of what was read from wide entries and no bake");
}

static void no_bake_at_all(const struct engine *engine)
{
    for (uint32_t n = 1; n <= MOST_SERVERS; n++) {
        for (uint32_t entries = 0; entries <= MOST_ENTRIES; entries += 16) {
            struct scene scene = fresh_scene(engine, n, 1);
            fill_figures(&scene, entries, 3);
            needlessly_wide(engine, &scene);
        }
    }
}

static void drawn_tables(const struct engine *engine)
{
    struct source source = {3};
    for (uint32_t left = DRAWN_TABLES; left > 0; left--) {
        struct scene scene = {engine, {0}};
        draw_odd_table(&source, scene.table);
        if (chance(&source, 20)) {
            disturb_table(&source, scene.table);
        }
        if (plain_is_whole(scene.table, TABLE_BYTES)) {
            writes_image(engine, &scene, "write of a drawn table");
        } else {
            struct image none = {{0}, 0};
            writes(engine, scene.table, TABLE_BYTES, MOST_BUFFER_BYTES, 1, &none, "write of a drawn broken table");
        }
    }
}

void check_writing(const struct engine *engine)
{
    fresh_and_full_tables(engine);
    broken_tables(engine);
    one_bake_alone(engine);
    no_bake_at_all(engine);
    drawn_tables(engine);
}
