/* A file that is given as a text or packed (TEXT.md). */
#ifndef TOOL_SOURCE_H
#define TOOL_SOURCE_H

#include "section.h"
#include "text.h"

struct source {
    struct file given;
    bool is_text;
    struct section packed; /* what the text stands for */
    struct file file;      /* the packed form: one of these two */
};

/* Reads the file: 0, or 2 after a message. */
int source_read(struct source *s, const char *path);
bool is_packed(const struct file *f); /* what is not is a text */

/* Of a text: begins with its first word, which is this one. What follows is packed into
 * s->packed, and source_packed then gives 0, or 2 after a message. */
struct text source_text(const struct source *s, const char *word);
int source_packed(struct source *s, const struct text *t);
void source_free(struct source *s);

#endif
