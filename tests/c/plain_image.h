/* The reader and the writer of table images once more in plain C; arguments, replies and effects are those of kyntulei_read and
 * kyntulei_write in kyntulei.h. */
#ifndef PLAIN_IMAGE_H
#define PLAIN_IMAGE_H

#include <stddef.h>
#include <stdint.h>

uint32_t plain_read(const uint8_t *image, size_t image_len, uint8_t *table, size_t table_len, uint64_t *end);

uint32_t plain_write(const uint8_t *table, size_t table_len, uint8_t *buffer, size_t buffer_len, uint64_t *end);

#endif
