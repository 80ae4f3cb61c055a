/* A list of times: how long each copy took, as text or packed (TEXT.md). */
#include "times.h"

int times_read(struct source *times, const char *path)
{
    struct text text;
    int status = source_read(times, path);

    if (status || !times->is_text)
        return status;
    text = source_text(times, "times");
    pack_times(&text, &times->packed);
    return source_packed(times, &text);
}

/* task K primary TICKS backup TICKS */
static void pack_line(struct text *t, struct section *to)
{
    take_word(t, "task");
    take_index(t, "task", to->entries);
    take_word(t, "primary");
    section_add(to, take_number(t, "the ticks that the primary took"), t->line);
    take_word(t, "backup");
    section_add(to, take_number(t, "the ticks that the backup took"), t->line);
    take_line_end(t);
    to->entries++;
}

/* No job is without a task, and an empty file would be taken for a text. */
void pack_times(struct text *t, struct section *to)
{
    take_line_end(t);
    while (next_line(t))
        pack_line(t, to);
    if (to->entries == 0)
        text_fault(t, "expected 'task', but the text ends");
}
