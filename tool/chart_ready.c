/* The ready times of a chart: a mark in the row of the primary that is held back by
 * it. A task that is ready from the beginning has none. */
#include "chart.h"

/* A mark behind the axis is left out: a passed plan has none there. */
static bool has_mark(const struct chart *c, const struct copy *copy)
{
    uint32_t ready = job_ready(&c->in->job, copy->task);

    return !copy->backup && ready > 0 && ready <= c->last;
}

bool has_ready_marks(const struct chart *c)
{
    for (size_t i = 0; i < c->count; i++)
        if (has_mark(c, &c->copies[i]))
            return true;
    return false;
}

/* A post with an arrow up to it, above the label of a bar that it stands on. */
void draw_ready_mark(struct chart *c, double x, double top, double height)
{
    buffer_print(&c->svg, "<path class=\"ready\" d=\"M%.1f %.1fl-9 -4.5v9zM%.1f %.1fh3"
                 "v%.1fh-3z\"/>\n", x - 1, top + 1.5, x - 1.5, top - 3, height + 5);
}

/* A primary that starts at another tick has a line there, from the foot of the mark. */
void draw_ready_marks(struct chart *c)
{
    for (size_t i = 0; i < c->count; i++) {
        const struct copy *copy = &c->copies[i];
        uint32_t ready = job_ready(&c->in->job, copy->task);
        double x = x_of(c, ready), top = bar_top(c, i);

        if (!has_mark(c, copy))
            continue;
        if (copy->start != ready)
            buffer_print(&c->svg, "<path class=\"wait\" d=\"M%.1f %.1fH%.1f\"/>\n", x,
                         top + BAR + 1.5, x_of(c, copy->start));
        draw_ready_mark(c, x, top, BAR);
    }
}
