/* The deadlines of a chart: a flag with the tick and the tasks, and a pole. */
#include "chart.h"

enum { MOST_RUNS = 5, PADDING = 5 };

static bool has_deadline(const struct chart *c, uint32_t task, uint32_t tick)
{
    return task < c->tasks && job_deadline(&c->in->job, task) == tick;
}

/* "0, 2-5", at most some runs of tasks */
static void add_tasks(struct buffer *b, const struct chart *c, uint32_t tick)
{
    unsigned runs = 0;

    for (uint32_t task = 0; task < c->tasks; task++) {
        uint32_t first = task;

        if (!has_deadline(c, task, tick))
            continue;
        if (runs == MOST_RUNS) {
            buffer_print(b, ", ..");
            return;
        }
        while (has_deadline(c, task + 1, tick))
            task++;
        buffer_print(b, runs++ ? ", %u" : "%u", (unsigned)first);
        if (task > first)
            buffer_print(b, "-%u", (unsigned)task);
    }
}

static uint32_t tasks_due(const struct chart *c, uint32_t tick)
{
    uint32_t sum = 0;

    for (uint32_t task = 0; task < c->tasks; task++)
        sum += has_deadline(c, task, tick);
    return sum;
}

/* A deadline behind the axis has its flag at the edge, with an arrow. */
static void add_label(struct buffer *b, const struct chart *c, uint32_t tick)
{
    buffer_print(b, "%u: task%s ", (unsigned)tick, tasks_due(c, tick) > 1 ? "s" : "");
    add_tasks(b, c, tick);
    if (tick > c->last)
        buffer_print(b, " \xe2\x86\x92");
}

static double label_width(const struct chart *c, uint32_t tick)
{
    struct buffer label = { NULL, 0, 0 };
    double wide;

    add_label(&label, c, tick);
    wide = 6.0 * (double)label.length + 2 * PADDING;
    buffer_free(&label);
    return wide;
}

static bool is_taken(const struct chart *c, const struct flag *f)
{
    for (size_t i = 0; i < c->flag_count; i++)
        if (c->flags[i].row == f->row && f->from < c->flags[i].to + 3
            && c->flags[i].from < f->to + 3)
            return true;
    return false;
}

/* The flag flies to the right of its pole, or to the left at the edge. */
static struct flag flag_at_pole(const struct chart *c, uint32_t tick)
{
    double wide = label_width(c, tick), x = x_of(c, tick);
    struct flag f = { tick, x, x + wide, 0 };

    if (f.to > c->right + RIGHT - 4) {
        f.from = x - wide;
        f.to = x;
    }
    while (is_taken(c, &f))
        f.row++;
    return f;
}

/* A flag without a pole, as far right as there is room. */
static struct flag flag_at_edge(const struct chart *c, uint32_t tick)
{
    double wide = label_width(c, tick);
    struct flag f = { tick, c->right - wide, c->right, 0 };

    while (is_taken(c, &f)) {
        f.from -= 4;
        if (f.from < c->left) {
            f.from = c->right - wide;
            f.row++;
        }
        f.to = f.from + wide;
    }
    return f;
}

/* The least deadline above a tick and within the axis, or 0. */
static uint32_t next_deadline(const struct chart *c, uint32_t tick)
{
    uint32_t next = 0;

    for (uint32_t task = 0; task < c->tasks; task++) {
        uint32_t deadline = job_deadline(&c->in->job, task);

        if (deadline > tick && deadline <= c->last && (next == 0 || deadline < next))
            next = deadline;
    }
    return next;
}

/* The greatest deadline below a tick and behind the axis, or 0. */
static uint32_t prior_deadline(const struct chart *c, uint32_t tick)
{
    uint32_t prior = 0;

    for (uint32_t task = 0; task < c->tasks; task++) {
        uint32_t deadline = job_deadline(&c->in->job, task);

        if (deadline < tick && deadline > c->last && deadline > prior)
            prior = deadline;
    }
    return prior;
}

/* Those behind the axis go from the last to the first, as they stand from right
 * to left. */
double place_flags(struct chart *c)
{
    uint32_t tick = 0;
    unsigned rows = 1;

    while ((tick = next_deadline(c, tick)) > 0)
        c->flags[c->flag_count++] = flag_at_pole(c, tick);
    tick = UINT32_MAX;
    while ((tick = prior_deadline(c, tick)) > 0)
        c->flags[c->flag_count++] = flag_at_edge(c, tick);
    for (size_t i = 0; i < c->flag_count; i++)
        if (c->flags[i].row >= rows)
            rows = c->flags[i].row + 1;
    return rows * FLAG_ROW + 6;
}

static double flag_top(const struct chart *c, const struct flag *f)
{
    return c->lane[0] - 4 - (f->row + 1) * FLAG_ROW;
}

void draw_poles(struct chart *c)
{
    for (size_t i = 0; i < c->flag_count; i++)
        if (c->flags[i].tick <= c->last)
            buffer_print(&c->svg, "<path class=\"pole\" d=\"M%.1f %.1fV%.1f\"/>\n",
                         x_of(c, c->flags[i].tick), flag_top(c, &c->flags[i]),
                         c->lane[c->nodes]);
}

void draw_flags(struct chart *c)
{
    for (size_t i = 0; i < c->flag_count; i++) {
        const struct flag *f = &c->flags[i];
        double top = flag_top(c, f);

        buffer_print(&c->svg, "<rect class=\"flag\" x=\"%.1f\" y=\"%.1f\" "
                     "width=\"%.1f\" height=\"%d\"/>\n<text class=\"small\" "
                     "x=\"%.1f\" y=\"%.1f\">", f->from, top, f->to - f->from,
                     FLAG_ROW - 3, f->from + PADDING, top + 11.5);
        add_label(&c->svg, c, f->tick);
        buffer_print(&c->svg, "</text>\n");
    }
    buffer_print(&c->svg, "<text class=\"small\" x=\"%.0f\" y=\"%.1f\" "
                 "text-anchor=\"end\">deadlines</text>\n", c->left - 12,
                 c->lane[0] - 10);
}
