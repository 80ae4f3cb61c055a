/* What a text stands for: numbers, each with the line that it stands on. */
#include "section.h"

void section_add(struct section *s, uint32_t value, unsigned line)
{
    buffer_number(&s->numbers, value);
    buffer_add(&s->lines, &line, sizeof line);
}

void section_join(struct section *to, const struct section *from)
{
    if (from->entries == 0)
        return;
    buffer_add(&to->numbers, from->numbers.data, from->numbers.length);
    buffer_add(&to->lines, from->lines.data, from->lines.length);
}

/* The count stands on no line of the text. */
void section_append(struct section *to, const struct section *from)
{
    section_add(to, (uint32_t)from->entries, 0);
    section_join(to, from);
}

/* The text of an empty log stands for no bytes, and data is never null. */
struct file section_file(const struct section *s, const char *name)
{
    static uint8_t nothing;
    struct file packed;

    packed.name = name;
    packed.data = s->numbers.data ? (uint8_t *)s->numbers.data : &nothing;
    packed.length = s->numbers.length;
    packed.lines = (const unsigned *)(const void *)s->lines.data;
    return packed;
}

void section_free(struct section *s)
{
    buffer_free(&s->numbers);
    buffer_free(&s->lines);
}
