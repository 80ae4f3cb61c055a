/* What a text stands for: numbers, each with the line that it stands on. */
#ifndef TOOL_SECTION_H
#define TOOL_SECTION_H

#include "files.h"

struct section {
    struct buffer numbers, lines;
    size_t entries;
};

void section_add(struct section *s, uint32_t value, unsigned line);

/* Puts a section behind another, with its count before it or without. */
void section_append(struct section *to, const struct section *from);
void section_join(struct section *to, const struct section *from);

/* The packed file, which lasts as long as the section does. */
struct file section_file(const struct section *s, const char *name);
void section_free(struct section *s);

#endif
