/* One more task: its description or a booking of it, as text or packed (TEXT.md). */
#include "new_task.h"

#include "layout.h"
#include "pack.h"

int new_task_pack(struct source *task, const struct file *job)
{
    struct text text;

    if (!task->is_text)
        return 0;
    text = source_text(task, "task");
    pack_new_task(&text, &task->packed, job);
    return source_packed(task, &text);
}

/* link from TASK delay TICKS */
static void pack_new_link(struct text *t, struct section *links)
{
    take_word(t, "from");
    section_add(links, take_number(t, "the task that the link comes from"), t->line);
    take_word(t, "delay");
    section_add(links, take_number(t, "the delay"), t->line);
    take_line_end(t);
    links->entries++;
}

/* The links stand before the place, which is the last line. */
static void pack_line(struct text *t, struct section *links, struct section *place)
{
    if (place->entries > 0) {
        text_fault(t, "expected the end of the text behind the place");
    } else if (took_word(t, "link")) {
        pack_new_link(t, links);
    } else if (took_word(t, "place")) {
        pack_copies(t, place);
        place->entries++;
    } else {
        text_fault(t, "expected a line that begins with 'link' or 'place'");
    }
}

void pack_new_task(struct text *t, struct section *to, const struct file *job)
{
    struct section links = { 0 }, place = { 0 };

    pack_entry(t, to, job_version(job), job_nodes(job));
    while (next_line(t))
        pack_line(t, &links, &place);
    section_append(to, &links);
    section_join(to, &place);
    section_free(&links);
    section_free(&place);
}
