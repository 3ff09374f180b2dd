/* A table to try actions on, drawn up figure by figure, and the checks made on it. */
#ifndef SCENE_H
#define SCENE_H

#include <stdbool.h>
#include <stddef.h>
#include <stdint.h>

#include "engines.h"
#include "layout.h"

struct scene {
    const struct engine *engine;
    uint8_t table[TABLE_BYTES];
};

struct bytes8 {
    uint8_t byte[ACTION_BYTES];
};

enum { READY_KINDS = LAST_KIND };

/* Counts the check, and prints its name if it does not hold. */
__attribute__((format(printf, 2, 3))) void check(bool holds, const char *name, ...);

/* Prints the number of checks; answers the program's exit code. */
int close_checks(const char *engine_name);

struct bytes8 act(uint32_t kind, uint32_t i, uint32_t j, uint32_t set);

/* Drawn up here and not by the engine's own fresh, which is checked against it; under rule 1, with no floor. */
struct scene fresh_scene(const struct engine *engine, uint32_t n, uint32_t set);

void give_rule(struct scene *scene, uint32_t rule);
void give_floor(struct scene *scene, uint32_t floor);
void give_role(struct scene *scene, uint32_t server, uint32_t role, uint32_t term);
void give_configuration(struct scene *scene, uint32_t server, uint32_t set, uint32_t version, uint32_t config_term);
/* All bakes of the log are 0, whatever they were; give_bakes gives its first entries others. */
void give_log(struct scene *scene, uint32_t server, size_t length, const uint32_t *entries);
void give_bakes(struct scene *scene, uint32_t server, size_t count, const uint32_t *bakes);
void give_mark(struct scene *scene, uint32_t position, uint32_t term);

#define LISTED(...) sizeof((uint32_t[]){__VA_ARGS__}) / sizeof(uint32_t), (uint32_t[]){__VA_ARGS__}
#define GIVE_LOG(scene, server, ...) give_log(scene, server, LISTED(__VA_ARGS__))
#define GIVE_BAKES(scene, server, ...) give_bakes(scene, server, LISTED(__VA_ARGS__))

/* Four servers on which one action of each kind is taken: ready_action(kind). */
struct scene ready_scene(const struct engine *engine);
struct bytes8 ready_action(uint32_t kind);

/* The reply to a stretch that is taken. */
uint64_t copied_reply(uint32_t entries);

/* Plays the action by step, and by run on a second copy; both have to give the reply and the table named. A reply that
 * shows nothing is its number. */
void replied(struct scene *scene, struct bytes8 action, uint64_t reply, const struct scene *after, const char *name);
void taken(struct scene *scene, struct bytes8 action, const struct scene *after, const char *name);
void refused(struct scene *scene, struct bytes8 action, uint64_t reply, const char *name);

void check_lines(const struct engine *engine);
void check_ladders(const struct engine *engine);
void check_fields(const struct engine *engine);
void check_errors(const struct engine *engine);
void check_rules(const struct engine *engine);
void check_servers(const struct engine *engine);
void check_stretches(const struct engine *engine);
void check_bakes(const struct engine *engine);
void check_broken(const struct engine *engine);
void check_lengths(const struct engine *engine);
void check_images(const struct engine *engine);
void check_bodies(const struct engine *engine);
void check_damages(const struct engine *engine);
void check_writing(const struct engine *engine);

#endif
