/* Contents that do not name the bodies (33), fields of bodies that break a rule (34), and the last good values. */
#include <stdio.h>

#include "reading.h"

/* More than two bodies of any length that 16 bits can name: no body ends beyond the input where that is not meant. */
enum { INPUT_BYTES = 140000, BODIES = 3 };

static uint8_t input[INPUT_BYTES];

static void put_server_body(size_t at)
{
    const uint8_t secondary[LOG_AT] = {[SET_AT] = 1, [VERSION_AT] = 1};
    memcpy(input + at, secondary, LOG_AT);
}

/* Two servers whose bodies have these lengths, and are right but for that: all marks, terms and bakes are 1. */
static void put_bodies(uint32_t width, const uint32_t *lengths)
{
    for (size_t at = 0; at < INPUT_BYTES; at++) {
        input[at] = at % 4 == 0;
    }
    memcpy(input, "SITE\2\0\0", OPENING_BYTES);
    input[WIDTH_AT] = (uint8_t)width;
    size_t offset = first_body_at(2);
    for (uint32_t body = 0; body < BODIES; body++) {
        put_half(input + contents_entry_at(body), (uint32_t)offset);
        put_half(input + contents_entry_at(body) + 2, lengths[body]);
        if (body > 0 && offset + LOG_AT <= INPUT_BYTES) {
            put_server_body(offset);
        }
        offset += lengths[body];
    }
}

static void give_ones(struct scene *scene, uint32_t server, uint32_t width, uint32_t log_bytes)
{
    uint32_t ones[MOST_ENTRIES];
    for (size_t index = 0; index < MOST_ENTRIES; index++) {
        ones[index] = 1;
    }
    size_t length = log_bytes / entry_bytes(width);
    give_log(scene, server, length, ones);
    give_bakes(scene, server, width == WIDE ? length : 0, ones);
}

static void length_of(const struct engine *engine, uint32_t width, uint32_t body, uint32_t length, bool is_good)
{
    uint32_t lengths[BODIES] = {8, 24, 32};
    lengths[body] = length;
    put_bodies(width, lengths);
    char name[60];
    snprintf(name, sizeof name, "%s body %u of %u bytes", width == WIDE ? "wide" : "narrow", body, length);
    if (!is_good) {
        is_bad_site(engine, input, INPUT_BYTES, 33, name);
        return;
    }
    struct scene scene = fresh_scene(engine, 2, 1);
    for (uint32_t index = 0; index < lengths[0] / 4; index++) {
        give_mark(&scene, index + 1, 1);
    }
    for (uint32_t server = 1; server < BODIES; server++) {
        give_ones(&scene, server, width, lengths[server] - LOG_AT);
    }
    reads_as(engine, input, INPUT_BYTES, &scene, 20 + lengths[0] + lengths[1] + lengths[2], name);
}

static bool is_good_length(uint32_t width, uint32_t body, uint32_t length)
{
    uint32_t fixed = body == 0 ? 0 : LOG_AT;
    uint32_t each = body == 0 ? MARK_BYTES : (uint32_t)entry_bytes(width);
    return length >= fixed && length <= fixed + 64 * each && (length - fixed) % each == 0;
}

/* The sums of the long ones pass 65,535, and the offsets behind them are what 16 bits keep of those. */
static void lengths_of_body(const struct engine *engine, uint32_t width, uint32_t body)
{
    for (uint32_t length = 0; length <= 600; length++) {
        length_of(engine, width, body, length, is_good_length(width, body, length));
    }
    for (uint32_t length = 1020; length < 65536; length += 508) {
        length_of(engine, width, body, length, false);
    }
    for (uint32_t length = 65408; length < 65536; length++) {
        length_of(engine, width, body, length, false);
    }
}

static void lengths_of_bodies(const struct engine *engine, uint32_t width)
{
    for (uint32_t body = 0; body < BODIES; body++) {
        lengths_of_body(engine, width, body);
    }
}

static struct scene small_scene(const struct engine *engine, uint32_t width)
{
    struct scene scene = fresh_scene(engine, 3, 7);
    give_role(&scene, 2, PRIMARY, 4);
    GIVE_LOG(&scene, 1, 2, 3);
    GIVE_LOG(&scene, 3, 5, 6, 7);
    give_mark(&scene, 1, 8);
    give_mark(&scene, 3, 9);
    if (width == WIDE) {
        fill_bakes(&scene);
    }
    return scene;
}

/* The last body may have another good length where bytes lie behind; all other bits of the contents are decided. */
static void bits_of_contents(const struct engine *engine, uint32_t width)
{
    struct scene scene = small_scene(engine, width);
    size_t image_len = image_of(scene.table, input);
    memset(input + image_len, 1, INPUT_BYTES - image_len);
    for (size_t at = contents_entry_at(0); at < first_body_at(3); at++) {
        for (uint32_t bit = 1; bit <= 128; bit *= 2) {
            input[at] ^= (uint8_t)bit;
            bool is_last_length = at >= contents_entry_at(3) + 2;
            if (!is_last_length || !is_good_length(width, 3, half(input + contents_entry_at(3) + 2))) {
                is_bad_site(engine, input, INPUT_BYTES, 33, "a bit of the contents");
            }
            input[at] ^= (uint8_t)bit;
        }
    }
}

static void contents_before_fields(const struct engine *engine, uint32_t width)
{
    struct scene scene = small_scene(engine, width);
    struct image image = image_of_scene(&scene);
    body_of(&image, 0)[3] = 0xff;
    body_of(&image, 1)[ROLE_AT] = 2;
    is_bad_site(engine, image.bytes, image.length, 34, "two bad fields");
    is_bad_site(engine, image.bytes, image.length - 1, 33, "two bad fields and a body beyond the input");
    for (uint32_t body = 0; body <= 3; body++) {
        contents_entry(&image, body)[0] ^= 4;
        is_bad_site(engine, image.bytes, image.length, 33, "two bad fields and a bad offset");
        contents_entry(&image, body)[0] ^= 4;
        contents_entry(&image, body)[2] ^= 1;
        is_bad_site(engine, image.bytes, image.length, 33, "two bad fields and a bad length");
        contents_entry(&image, body)[2] ^= 1;
    }
}

/* Where a figure stands in a body, in how many bytes, and in which column of the table's row. */
struct field {
    uint32_t body;
    size_t at;
    size_t bytes;
    size_t column;
};

static struct image image_with(const struct scene *scene, struct field field, uint32_t value)
{
    struct image image = image_of_scene(scene);
    memcpy(body_of(&image, field.body) + field.at, &value, field.bytes);
    return image;
}

static void bad_field(const struct scene *scene, struct field field, uint32_t value)
{
    struct image image = image_with(scene, field, value);
    char name[80];
    snprintf(name, sizeof name, "bad field: %u in byte %zu of body %u", value, field.at, field.body);
    is_bad_site(scene->engine, image.bytes, image.length, 34, name);
}

static void good_field(const struct scene *scene, struct field field, uint32_t value)
{
    struct image image = image_with(scene, field, value);
    char name[80];
    snprintf(name, sizeof name, "good field: %u in byte %zu of body %u", value, field.at, field.body);
    struct scene read = *scene;
    put_word(read.table + row_start(field.body), field.column, value);
    reads_as(scene->engine, image.bytes, image.length, &read, image.length, name);
}

static void counter(const struct scene *scene, struct field field)
{
    good_field(scene, field, 1);
    good_field(scene, field, CEILING);
    bad_field(scene, field, (uint32_t)CEILING + 1);
    bad_field(scene, field, UINT32_MAX);
}

static void counters_of_servers(const struct scene *scene, uint32_t width)
{
    const uint32_t entries[] = {0, 2, 0, 3};
    for (uint32_t server = 1; server <= 3; server++) {
        struct field version = {server, VERSION_AT, 4, VERSION};
        struct field config_term = {server, CONFIG_TERM_AT, 4, CONFIG_TERM};
        counter(scene, (struct field){server, TERM_AT, 4, TERM});
        counter(scene, version);
        counter(scene, config_term);
        bad_field(scene, version, 0);
        good_field(scene, config_term, 0);
        for (size_t index = 0; index < entries[server]; index++) {
            struct field entry = {server, LOG_AT + entry_bytes(width) * index, 4, ENTRIES + index};
            counter(scene, entry);
            bad_field(scene, entry, 0);
        }
    }
}

/* Any number will do, 0 too: which entries are wide is not judged by what they are. */
static void bakes_of_servers(const struct scene *scene)
{
    const uint32_t bakes[] = {0, 1, 0x01020304, CEILING, (uint32_t)CEILING + 1, UINT32_MAX};
    for (uint32_t server = 1; server <= 3; server++) {
        for (size_t index = 0; index < word(scene->table + row_start(server), LOG_LENGTH); index++) {
            for (size_t which = 0; which < sizeof bakes / sizeof *bakes; which++) {
                good_field(scene, (struct field){server, LOG_AT + 8 * index + 4, 4, BAKES + index}, bakes[which]);
            }
        }
    }
}

static void roles_and_sets(const struct scene *scene)
{
    const uint32_t bad_sets[] = {0, 8, 0x100, 0x8007};
    for (uint32_t server = 1; server <= 3; server++) {
        struct field role = {server, ROLE_AT, 1, ROLE};
        struct field set = {server, SET_AT, 2, SET};
        /* The zero byte as the high byte of a role of two. */
        struct field zero = {server, ROLE_AT, 2, ROLE};
        bad_field(scene, role, 2);
        bad_field(scene, role, 0x80);
        bad_field(scene, zero, 0x100);
        bad_field(scene, zero, 0x8001);
        good_field(scene, set, 4);
        for (size_t which = 0; which < sizeof bad_sets / sizeof *bad_sets; which++) {
            bad_field(scene, set, bad_sets[which]);
        }
    }
    /* Server 2 alone is primary, and at term 0 are all but server 2. */
    good_field(scene, (struct field){2, ROLE_AT, 1, ROLE}, SECONDARY);
    good_field(scene, (struct field){1, TERM_AT, 4, TERM}, 0);
    bad_field(scene, (struct field){2, TERM_AT, 4, TERM}, 0);
    bad_field(scene, (struct field){1, ROLE_AT, 1, ROLE}, PRIMARY);
}

static void fields_of_marks(const struct scene *scene)
{
    for (size_t index = 0; index < 3; index++) {
        counter(scene, (struct field){0, 4 * index, 4, MARKS + index});
    }
    good_field(scene, (struct field){0, 0, 4, MARKS}, 0);
    bad_field(scene, (struct field){0, 8, 4, MARKS + 2}, 0);
}

static void last_marks(const struct engine *engine, uint32_t width)
{
    for (uint32_t positions = 1; positions <= MOST_ENTRIES; positions++) {
        put_bodies(width, (const uint32_t[BODIES]){4 * positions, 16, 16});
        input[first_body_at(2) + 4 * (positions - 1)] = 0;
        is_bad_site(engine, input, INPUT_BYTES, 34, "a last mark of 0");
    }
}

void check_bodies(const struct engine *engine)
{
    for (uint32_t width = NARROW; width <= WIDE; width++) {
        struct scene scene = small_scene(engine, width);
        lengths_of_bodies(engine, width);
        bits_of_contents(engine, width);
        contents_before_fields(engine, width);
        counters_of_servers(&scene, width);
        roles_and_sets(&scene);
        fields_of_marks(&scene);
        last_marks(engine, width);
    }
    struct scene wide = small_scene(engine, WIDE);
    bakes_of_servers(&wide);
}
