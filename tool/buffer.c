/* A buffer that grows: each output is made whole here before it is written. */
#include "buffer.h"

#include <stdarg.h>
#include <stdio.h>
#include <stdlib.h>
#include <string.h>

void *reallocated(void *old, size_t bytes)
{
    void *memory = realloc(old, bytes ? bytes : 1);

    if (!memory) {
        fputs("seqopchi: out of memory\n", stderr);
        exit(2);
    }
    return memory;
}

void *allocated(size_t bytes)
{
    return reallocated(NULL, bytes);
}

static void make_room(struct buffer *b, size_t more)
{
    if (b->room - b->length >= more)
        return;
    b->room = 2 * b->room + more + 256;
    b->data = reallocated(b->data, b->room);
}

void buffer_add(struct buffer *b, const void *data, size_t length)
{
    if (length == 0) /* there may be no room at all */
        return;
    make_room(b, length);
    memcpy(b->data + b->length, data, length);
    b->length += length;
}

void buffer_print(struct buffer *b, const char *format, ...)
{
    va_list words;
    int length;

    va_start(words, format);
    length = vsnprintf(NULL, 0, format, words);
    va_end(words);
    if (length < 0)
        return;
    make_room(b, (size_t)length + 1);
    va_start(words, format);
    vsnprintf(b->data + b->length, (size_t)length + 1, format, words);
    va_end(words);
    b->length += (size_t)length;
}

/* A number as the files hold it: 4 bytes, low byte first. */
void buffer_number(struct buffer *b, uint32_t value)
{
    uint8_t bytes[4];

    for (int i = 0; i < 4; i++)
        bytes[i] = (uint8_t)(value >> 8 * i);
    buffer_add(b, bytes, sizeof bytes);
}

void buffer_free(struct buffer *b)
{
    free(b->data);
    memset(b, 0, sizeof *b);
}
