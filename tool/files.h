/* Files read whole and written whole or not at all; "-" is a standard stream. */
#ifndef TOOL_FILES_H
#define TOOL_FILES_H

#include "buffer.h"

#include <stdbool.h>

struct file {
    const char *name;      /* for messages */
    uint8_t *data;         /* exactly length bytes, never null */
    size_t length;
    const unsigned *lines; /* for a packed text: the line of each number, or 0 */
};

/* Says what went wrong on standard error; gives the exit status 2. */
int failed(const char *format, ...) __attribute__((format(printf, 1, 2)));

/* Whether a path is "-", a standard stream. */
bool is_dash(const char *path);

/* The first bytes of a file, at most `most`. 0, or 2 after a message. */
int file_read(struct file *f, const char *path, size_t most);

/* Whether a file is to be read on, by what there is of it and what it goes with. */
typedef bool reads_on(const struct file *so_far, const struct file *beside);

/* The first bytes, at most `first`; while there may be more and `on` says so, twice as
 * many. */
int file_read_on(struct file *f, const char *path, size_t first, reads_on *on,
                 const struct file *beside);
void file_free(struct file *f);

/* What is written to a path. */
struct output {
    const char *path;
    const void *data;
    size_t length;
};

/* Two outputs, both or none: neither old file is replaced before both new ones lie
 * whole beside them. 0, or 2 after a message. */
int files_write(const struct output outputs[2]);

/* One output: the same. */
int file_write(const char *path, const void *data, size_t length);

/* Whether two paths are the same, or lead to one file that is there. */
bool same_file(const char *left, const char *right);

#endif
