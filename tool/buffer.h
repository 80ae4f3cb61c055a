/* A buffer that grows: each output is made whole here before it is written. */
#ifndef TOOL_BUFFER_H
#define TOOL_BUFFER_H

#include <stddef.h>
#include <stdint.h>

struct buffer {
    char *data;
    size_t length, room;
};

/* Memory of at least one byte, or the end of the program with status 2. */
void *allocated(size_t bytes);
void *reallocated(void *old, size_t bytes);

void buffer_add(struct buffer *b, const void *data, size_t length);
void buffer_print(struct buffer *b, const char *format, ...)
    __attribute__((format(printf, 2, 3)));
void buffer_number(struct buffer *b, uint32_t value);
void buffer_free(struct buffer *b);

#endif
