/* The engines a test can drive, all behind the same six functions. */
#ifndef ENGINES_H
#define ENGINES_H

#include <stddef.h>
#include <stdint.h>

struct engine {
    const char *name;
    size_t (*table_bytes)(void);
    uint32_t (*fresh)(uint8_t *table, size_t table_len, uint32_t n, uint32_t set, uint32_t rule, uint32_t floor);
    uint32_t (*step)(uint8_t *table, size_t table_len, const uint8_t *action, size_t action_len,
                     uint64_t *reply);
    uint64_t (*run)(uint8_t *table, size_t table_len, const uint8_t *actions, size_t actions_len,
                    uint8_t *replies, size_t replies_len);
    uint32_t (*read)(const uint8_t *image, size_t image_len, uint8_t *table, size_t table_len, uint64_t *end);
    uint32_t (*write)(const uint8_t *table, size_t table_len, uint8_t *buffer, size_t buffer_len, uint64_t *end);
};

extern const struct engine plain_engine;

/* The verified engine where it is linked, and else the plain one again. */
extern const struct engine *const tested_engine;

/* NULL for a name that is neither engine's. */
const struct engine *engine_named(const char *name);

#endif
