/* Calls of an engine's read on images that are drawn up here, with all that they touch and must not touch. */
#ifndef READING_H
#define READING_H

#include "image.h"
#include "scene.h"

struct image {
    uint8_t bytes[MOST_IMAGE_BYTES];
    size_t length;
};

/* Gives every server so many entries and figures near their ceilings; of so many positions the last and every third one
 * is marked. */
void fill_figures(struct scene *scene, uint32_t entries, uint32_t positions);

/* Gives every entry a bake of its own. */
void fill_bakes(struct scene *scene);

struct image image_of_scene(const struct scene *scene);

/* With entries of 8 bytes even where all bakes are 0. */
struct image wide_image_of_scene(const struct scene *scene);

uint8_t *contents_entry(struct image *image, uint32_t body);

/* The body as the contents name it. */
uint8_t *body_of(struct image *image, uint32_t body);

/* These first `length` bytes have to be read as this scene, whose image ends at `end`. */
void reads_as(const struct engine *engine, const uint8_t *bytes, size_t length, const struct scene *scene,
              uint64_t end, const char *name);

/* Into a slice of table_len bytes they must not be read: the number has to be given, and nothing written. */
void is_not_read(const struct engine *engine, const uint8_t *bytes, size_t length, size_t table_len, uint32_t number,
                 const char *name);

/* Nor into a slice that is a table. */
void is_bad_site(const struct engine *engine, const uint8_t *bytes, size_t length, uint32_t number,
                 const char *name);

/* The engine and the plain one have to do the same, whatever that is. */
void reads_alike(const struct engine *engine, const uint8_t *bytes, size_t length, const char *name);

#endif
