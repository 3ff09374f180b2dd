#include "generate.h"
#include "image.h"

size_t draw_image(struct source *source, const uint8_t *table, uint8_t *image)
{
    return chance(source, 15) ? wide_image_of(table, image) : image_of(table, image);
}

/* Small changes and whole other bytes: a reader may miss the one and see the other. */
static void alter_byte(struct source *source, uint8_t *byte)
{
    uint32_t bit = below(source, 8);
    uint8_t other = (uint8_t)between(source, 1, UINT8_MAX);
    *byte ^= chance(source, 50) ? (uint8_t)(1U << bit) : other;
}

static void alter_between(struct source *source, uint8_t *image, size_t from, size_t end)
{
    alter_byte(source, image + from + below(source, (uint32_t)(end - from)));
}

static void clear_word_between(struct source *source, uint8_t *image, size_t from, size_t end)
{
    put_word(image + from, below(source, (uint32_t)(end - from) / 4), 0);
}

static size_t cut_below(struct source *source, size_t bound, size_t length)
{
    size_t cut = below(source, (uint32_t)bound);
    return cut < length ? cut : length;
}

static size_t damage_once(struct source *source, uint8_t *image, size_t contents_end, size_t image_len, size_t length)
{
    switch (below(source, 8)) {
    case 0:
        return cut_below(source, OPENING_BYTES, length);
    case 1:
        return cut_below(source, image_len, length);
    case 2:
        alter_between(source, image, 0, OPENING_BYTES);
        break;
    case 3:
        alter_byte(source, image + SERVERS_AT);
        break;
    case 4:
        alter_between(source, image, OPENING_BYTES, contents_end);
        break;
    case 5:
        image[WIDTH_AT] = (uint8_t)below(source, WIDE + 2);
        break;
    case 6:
        clear_word_between(source, image, contents_end, image_len);
        break;
    default:
        alter_between(source, image, contents_end, image_len);
        break;
    }
    return length;
}

size_t damage_image(struct source *source, uint8_t *image, size_t image_len, size_t length)
{
    /* Asked while the image still is a good one. */
    size_t contents_end = first_body_at(image[SERVERS_AT]);
    for (uint32_t times = between(source, 1, 3); times > 0; times--) {
        length = damage_once(source, image, contents_end, image_len, length);
    }
    return length;
}
