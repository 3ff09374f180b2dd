/* The engine once more in plain C, written from the rules and not from the verified engine; arguments, replies and
 * effects are those of the functions of the same name in kyntulei.h. */
#ifndef PLAIN_H
#define PLAIN_H

#include <stddef.h>
#include <stdint.h>

size_t plain_table_bytes(void);
uint32_t plain_fresh(uint8_t *table, size_t table_len, uint32_t n, uint32_t set, uint32_t rule, uint32_t floor);
uint32_t plain_step(uint8_t *table, size_t table_len, const uint8_t *action, size_t action_len, uint64_t *reply);
uint64_t plain_run(uint8_t *table, size_t table_len, const uint8_t *actions, size_t actions_len,
                   uint8_t *replies, size_t replies_len);

#endif
