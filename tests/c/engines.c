#include "engines.h"

#include <string.h>

#include "plain.h"
#include "plain_image.h"

const struct engine plain_engine = {
    "plain", plain_table_bytes, plain_fresh, plain_step, plain_run, plain_read, plain_write,
};

#ifdef WITH_KYNTULEI
#include "kyntulei.h"

static const struct engine verified_engine = {
    "kyntulei", kyntulei_table_bytes, kyntulei_fresh, kyntulei_step, kyntulei_run, kyntulei_read,
    kyntulei_write,
};
const struct engine *const tested_engine = &verified_engine;
#else
const struct engine *const tested_engine = &plain_engine;
#endif

const struct engine *engine_named(const char *name)
{
    if (strcmp(name, plain_engine.name) == 0) {
        return &plain_engine;
    }
    return strcmp(name, tested_engine->name) == 0 ? tested_engine : NULL;
}
