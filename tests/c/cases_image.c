/* Images that are read, opening bytes that are refused, and slices that are no table. */
#include <stdio.h>

#include "reading.h"

/* Byte for byte from document 01, so that neither a reader nor the tests' own writer is only held against the other. */
static const uint8_t whole_case[92] = {
    'S', 'I', 'T', 'E', 4, 0, 0, 0, 28, 0, 0, 0, 28, 0, 16, 0, 44, 0, 16, 0, 60, 0, 16, 0, 76, 0, 16, 0,
    0, 0, 7, 0, 0, 0, 0, 0, 1, 0, 0, 0, 0, 0, 0, 0, 0, 0, 7, 0, 0, 0, 0, 0, 1, 0, 0, 0, 0, 0, 0, 0,
    0, 0, 7, 0, 0, 0, 0, 0, 1, 0, 0, 0, 0, 0, 0, 0, 0, 0, 7, 0, 0, 0, 0, 0, 1, 0, 0, 0, 0, 0, 0, 0,
};

/* Every byte of a figure different: rule 2; a floor of 5; marks 0x0a0b0c0d, none and 3; server 1 with two entries, server 2 with
 * none. */
static const uint8_t two_servers[72] = {
    'S', 'I', 'T', 'E', 2, 0, 1, 5, 20, 0, 12, 0, 32, 0, 24, 0, 56, 0, 16, 0,
    0x0d, 0x0c, 0x0b, 0x0a, 0, 0, 0, 0, 3, 0, 0, 0,
    1, 0, 3, 0, 4, 3, 2, 1, 8, 7, 6, 5, 12, 11, 10, 9, 16, 15, 14, 13, 20, 19, 18, 17,
    0, 0, 2, 0, 24, 23, 22, 21, 28, 27, 26, 25, 32, 31, 30, 29,
};

/* Two servers with bakes: 0x15161718 and none at server 1, 0xf3f2f1f0 at server 2. Marks stay terms. */
static const uint8_t with_bakes[80] = {
    'S', 'I', 'T', 'E', 2, 1, 0, 0, 20, 0, 4, 0, 24, 0, 32, 0, 56, 0, 24, 0,
    9, 0, 0, 0,
    1, 0, 3, 0, 4, 3, 2, 1, 8, 7, 6, 5, 12, 11, 10, 9,
    0x14, 0x13, 0x12, 0x11, 0x18, 0x17, 0x16, 0x15, 0x1c, 0x1b, 0x1a, 0x19, 0, 0, 0, 0,
    0, 0, 2, 0, 0, 0, 0, 0, 1, 0, 0, 0, 0, 0, 0, 0,
    2, 0, 0, 0, 0xf0, 0xf1, 0xf2, 0xf3,
};

static void literal_images(const struct engine *engine)
{
    struct scene scene = fresh_scene(engine, 4, 7);
    struct image written = image_of_scene(&scene);
    reads_as(engine, whole_case, sizeof whole_case, &scene, 92, "image of rehearse's case");
    check(written.length == 92 && memcmp(written.bytes, whole_case, 92) == 0, "the tests write rehearse's case");

    scene = fresh_scene(engine, 2, 3);
    give_rule(&scene, RULE_2);
    give_floor(&scene, 5);
    give_role(&scene, 1, PRIMARY, 0x01020304);
    give_configuration(&scene, 1, 3, 0x05060708, 0x090a0b0c);
    GIVE_LOG(&scene, 1, 0x0d0e0f10, 0x11121314);
    give_role(&scene, 2, SECONDARY, 0x15161718);
    give_configuration(&scene, 2, 2, 0x191a1b1c, 0x1d1e1f20);
    give_mark(&scene, 1, 0x0a0b0c0d);
    give_mark(&scene, 3, 3);
    written = image_of_scene(&scene);
    reads_as(engine, two_servers, sizeof two_servers, &scene, 72, "image of two servers");
    check(written.length == 72 && memcmp(written.bytes, two_servers, 72) == 0, "the tests write two servers");

    scene = fresh_scene(engine, 2, 2);
    give_role(&scene, 1, PRIMARY, 0x01020304);
    give_configuration(&scene, 1, 3, 0x05060708, 0x090a0b0c);
    GIVE_LOG(&scene, 1, 0x11121314, 0x191a1b1c);
    GIVE_BAKES(&scene, 1, 0x15161718, 0);
    GIVE_LOG(&scene, 2, 2);
    GIVE_BAKES(&scene, 2, 0xf3f2f1f0);
    give_mark(&scene, 1, 9);
    written = image_of_scene(&scene);
    reads_as(engine, with_bakes, sizeof with_bakes, &scene, 80, "image of two servers with bakes");
    check(written.length == 80 && memcmp(written.bytes, with_bakes, 80) == 0, "the tests write two servers with bakes");
}

static void good_image(const struct scene *scene, size_t expected_length, const char *name)
{
    struct image image = image_of_scene(scene);
    check(image.length == expected_length, "%s: the image has %zu bytes", name, image.length);
    reads_as(scene->engine, image.bytes, image.length, scene, expected_length, name);
}

static void fresh_images(const struct engine *engine)
{
    for (uint32_t n = 1; n <= MOST_SERVERS; n++) {
        const uint32_t sets[] = {1, only(n), all_servers(n)};
        for (size_t which = 0; which < sizeof sets / sizeof *sets; which++) {
            char name[60];
            snprintf(name, sizeof name, "image of a fresh table: %u servers, set %u", n, sets[which]);
            struct scene scene = fresh_scene(engine, n, sets[which]);
            good_image(&scene, 12 + 20 * n, name);
            give_rule(&scene, RULE_2);
            good_image(&scene, 12 + 20 * n, name);
            give_floor(&scene, n);
            good_image(&scene, 12 + 20 * n, name);
        }
    }
}

static void long_and_short_images(const struct engine *engine)
{
    const uint32_t numbers[] = {1, 16};
    const uint32_t counts[] = {0, 1, 2, 63, 64};
    for (size_t which = 0; which < sizeof numbers / sizeof *numbers; which++) {
        for (size_t log = 0; log < sizeof counts / sizeof *counts; log++) {
            for (size_t mark = 0; mark < sizeof counts / sizeof *counts; mark++) {
                uint32_t n = numbers[which];
                char name[80];
                snprintf(name, sizeof name, "image of %u servers, %u entries, %u marks", n, counts[log], counts[mark]);
                struct scene scene = fresh_scene(engine, n, 1);
                fill_figures(&scene, counts[log], counts[mark]);
                good_image(&scene, 12 + 4 * n + 4 * counts[mark] + n * (16 + 4 * counts[log]), name);
                fill_bakes(&scene);
                good_image(&scene, 12 + 4 * n + 4 * counts[mark] + n * (16 + 8 * counts[log]), name);
            }
        }
    }
}

static void longest_image(const struct engine *engine)
{
    struct scene scene = fresh_scene(engine, 16, 1);
    fill_figures(&scene, 64, 64);
    fill_bakes(&scene);
    good_image(&scene, 8780, "the longest image");
}

/* Also so many that a length of 16 bits would show an input that ends within the image. */
static void bytes_behind(const struct engine *engine)
{
    static uint8_t input[140000];
    struct scene scene = fresh_scene(engine, 4, 7);
    memset(input, 0xff, sizeof input);
    memcpy(input, whole_case, sizeof whole_case);
    const size_t lengths[] = {93, 94, 99, 100, 184, 65535, 65536, 65537, 65543, 65627, 131072, 131073, 140000};
    for (size_t which = 0; which < sizeof lengths / sizeof *lengths; which++) {
        reads_as(engine, input, lengths[which], &scene, 92, "image with bytes behind it");
    }
}

static void opening_bytes(const struct engine *engine)
{
    uint8_t image[92];
    for (size_t length = 0; length < OPENING_BYTES; length++) {
        is_bad_site(engine, (const uint8_t *)"site\x11\2\2", length, 30, "fewer than 8 bytes, all of them wrong");
    }
    memcpy(image, whole_case, sizeof image);
    const uint8_t bad_numbers[] = {0, 17, 18, 32, 128, 255};
    for (size_t which = 0; which < sizeof bad_numbers; which++) {
        image[SERVERS_AT] = bad_numbers[which];
        is_bad_site(engine, image, sizeof image, 32, "n outside 1 to 16");
        is_bad_site(engine, image, OPENING_BYTES, 32, "n outside 1 to 16 and no contents");
        for (size_t at = 0; at < OPENING_BYTES; at++) {
            if (at != SERVERS_AT) {
                image[at] ^= 32;
                is_bad_site(engine, image, sizeof image, 31, "31 before 32");
                is_bad_site(engine, image, OPENING_BYTES, 31, "31 before 32 and no contents");
                image[at] ^= 32;
            }
        }
    }
}

static void slices_that_are_no_table(const struct engine *engine)
{
    const size_t lengths[] = {0, 1, 536, 4760, 8576, 9108, 9111};
    uint8_t image[93];
    memcpy(image, whole_case, sizeof whole_case);
    for (size_t which = 0; which < sizeof lengths / sizeof *lengths; which++) {
        is_not_read(engine, image, 92, lengths[which], 1, "a good image for no table");
        is_not_read(engine, image, 0, lengths[which], 1, "1 before 30");
        is_not_read(engine, image, 9, lengths[which], 1, "1 before 33");
        image[30] ^= 16;
        is_not_read(engine, image, 92, lengths[which], 1, "1 before 34");
        image[30] ^= 16;
        image[0] ^= 1;
        is_not_read(engine, image, 92, lengths[which], 1, "1 before 31");
        image[0] ^= 1;
    }
    /* In the canaries' room behind the table. */
    is_not_read(engine, image, 92, TABLE_BYTES + 1, 1, "a good image for a longer slice");
    is_not_read(engine, image, 92, TABLE_BYTES + 4, 1, "a good image for a slice of a word more");
    uint64_t end = 5;
    uint8_t table[TABLE_BYTES];
    check(engine->read(NULL, 0, NULL, 0, &end) == 1, "no image and no slice");
    check(engine->read(NULL, 0, table, TABLE_BYTES, &end) == 30, "no image");
    check(end == 5, "no image leaves end");
}

void check_images(const struct engine *engine)
{
    literal_images(engine);
    fresh_images(engine);
    long_and_short_images(engine);
    longest_image(engine);
    bytes_behind(engine);
    opening_bytes(engine);
    slices_that_are_no_table(engine);
}
