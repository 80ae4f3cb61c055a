/* chart: a plan, or its run with a loss or a list of times, as a drawing in SVG. */
#include "chart.h"

#include <stdlib.h>
#include <string.h>

double x_of(const struct chart *c, uint32_t tick)
{
    return c->left + (c->right - c->left) * tick / c->last;
}

double bar_top(const struct chart *c, size_t copy)
{
    return c->lane[c->copies[copy].node] + LANE_EDGE + ROW * c->row[copy]
        + (ROW - BAR) / 2.0;
}

bool is_lost(const struct chart *c, uint32_t node)
{
    return c->o->lose && job_group(&c->in->job, node) == c->o->group;
}

bool is_run(const struct chart *c)
{
    return c->run.data;
}

uint32_t outcome(const struct chart *c, const struct copy *copy)
{
    if (!is_run(c))
        return SEQOPCHI_FINISHED;
    return copy_outcome(&c->run, copy);
}

uint32_t end_of(const struct chart *c, const struct copy *copy)
{
    if (!c->in->timed)
        return copy->finish;
    return copy->start + actual_time(&c->in->times.file, copy);
}

bool is_sooner(const struct chart *c, const struct copy *copy)
{
    return outcome(c, copy) == SEQOPCHI_FINISHED && end_of(c, copy) < copy->finish;
}

/* The last finish in a row of this copy's lane, among the copies before it. */
static uint32_t row_end(const struct chart *c, size_t copy, unsigned row)
{
    uint32_t end = 0;

    for (size_t i = 0; i < copy; i++)
        if (c->copies[i].node == c->copies[copy].node && c->row[i] == row
            && c->copies[i].finish > end)
            end = c->copies[i].finish;
    return end;
}

/* Copies that overlap stand below each other. */
static void set_rows(struct chart *c)
{
    for (uint32_t node = 0; node < c->nodes; node++)
        c->rows[node] = 1;
    for (size_t i = 0; i < c->count; i++) {
        uint32_t node = c->copies[i].node;

        c->row[i] = 0;
        while (row_end(c, i, c->row[i]) > c->copies[i].start)
            c->row[i]++;
        if (c->row[i] >= c->rows[node])
            c->rows[node] = c->row[i] + 1;
    }
}

/* 1, 2 or 5 times a power of ten: at most a dozen steps. */
static uint32_t axis_step(uint32_t end)
{
    uint32_t step = 1;

    for (int i = 0; end / step > 12; i++)
        step = i % 3 == 1 ? step / 2 * 5 : step * 2;
    return step;
}

static uint32_t last_finish(const struct chart *c)
{
    uint32_t finish = 0;

    for (size_t i = 0; i < c->count; i++)
        if (c->copies[i].finish > finish)
            finish = c->copies[i].finish;
    return finish;
}

/* The end of an axis that also holds this tick, unless it lies too far off. */
static uint32_t end_with(uint32_t end, uint32_t tick, uint32_t most)
{
    return tick > end && tick <= most ? tick : end;
}

/* The axis ends behind the last finish, the deadlines, the ready times and the loss,
 * unless these lie so far off that the copies would be squeezed. */
static void set_axis(struct chart *c)
{
    const struct file *job = &c->in->job;
    uint32_t finish = last_finish(c), end = finish;

    for (uint32_t task = 0; task < c->tasks; task++) {
        end = end_with(end, job_deadline(job, task), finish / 2 * 5);
        end = end_with(end, job_ready(job, task), finish / 2 * 5);
    }
    if (c->o->lose)
        end = end_with(end, c->o->tick, finish / 4 * 5);
    c->step = axis_step(end);
    c->last = (end + c->step - 1) / c->step * c->step;
}

/* Left of the plot stand the names of the nodes, with their groups where the job says
 * them, and left of these the brackets. */
static void set_left(struct chart *c)
{
    c->label = EDGE + BRACKET * place_brackets(c);
    c->left = c->label + NAME + (job_has(&c->in->job, GROUP) ? GROUP_NAME : 0);
}

/* Wide enough to label the shortest copy, within reason. */
static void set_width(struct chart *c)
{
    uint32_t least = c->last;
    double plot;

    for (size_t i = 0; i < c->count; i++)
        if (c->copies[i].finish - c->copies[i].start < least)
            least = c->copies[i].finish - c->copies[i].start;
    plot = (double)BAR_LEAST * c->last / least;
    if (plot < PLOT_LEAST)
        plot = PLOT_LEAST;
    if (plot > PLOT_MOST)
        plot = PLOT_MOST;
    c->right = c->left + plot;
}

static void set_lanes(struct chart *c, double top)
{
    for (uint32_t node = 0; node < c->nodes; node++) {
        c->lane[node] = top;
        top += ROW * c->rows[node] + 2 * LANE_EDGE;
    }
    c->lane[c->nodes] = top;
}

static void open_chart(struct chart *c, const struct input *in, const struct options *o)
{
    c->in = in;
    c->o = o;
    c->nodes = job_nodes(&in->job);
    c->tasks = job_tasks(&in->job);
    c->copies = plan_copies(&in->job, &in->plan, &c->count);
    c->row = allocated(c->count * sizeof *c->row);
    c->rows = allocated(c->nodes * sizeof *c->rows);
    c->lane = allocated((c->nodes + 1) * sizeof *c->lane);
    c->flags = allocated(c->tasks * sizeof *c->flags);
    c->flag_count = 0;
    c->legend_row = 0;
    memset(&c->svg, 0, sizeof c->svg);
}

static void close_chart(struct chart *c)
{
    free(c->copies);
    free(c->row);
    free(c->rows);
    free(c->lane);
    free(c->flags);
    file_free(&c->run);
}

static void draw(struct chart *c)
{
    set_rows(c);
    set_axis(c);
    set_left(c);
    set_width(c);
    set_lanes(c, HEAD + place_flags(c));
    draw_styles(c, c->lane[c->nodes] + AXIS + LEGEND_ROW * (c->in->timed ? 2 : 1));
    draw_title(c);
    draw_lanes(c);
    draw_brackets(c);
    draw_loss(c);
    draw_poles(c);
    draw_copies(c);
    draw_ready_marks(c);
    draw_flags(c);
    draw_legend(c);
    buffer_print(&c->svg, "</svg>\n");
}

int run_chart(const struct options *o)
{
    struct input in;
    struct chart c;
    int status = read_readable(&in, o);

    if (status)
        return status;
    c.run.data = NULL;
    if (o->lose || o->times)
        status = replayed(&c.run, &in, o);
    if (status == 0) {
        open_chart(&c, &in, o);
        draw(&c);
        close_chart(&c);
        status = finish_output(o, &c.svg);
    }
    free_input(&in);
    return status;
}
