/* The parts of a chart. Primaries are dark and backups hatched, what did not run
 * is dashed, what was not needed is open and a cut is crossed, so that a print in grey
 * tells them apart. */
#include "chart.h"

#include "groups.h"
#include "refusal.h"

#include <string.h>

static const char styles[] =
    "<style>\n"
    "text{font-family:Helvetica,Arial,'Liberation Sans',sans-serif;"
    "font-size:12px;fill:#222}\n"
    ".title{font-size:18px;font-weight:bold}\n"
    ".small{font-size:11px}\n"
    ".node{font-size:13px;font-weight:bold}\n"
    ".lane{fill:#f4f5f7}\n"
    ".rule{stroke:#999;fill:none}\n"
    ".grid{stroke:#dcdfe3;fill:none}\n"
    ".pole{stroke:#222;stroke-dasharray:2 3;fill:none}\n"
    ".flag{fill:#fff;stroke:#222}\n"
    ".shared{fill:#e4d49a}\n"
    ".gone{fill:url(#cross)}\n"
    ".loss{stroke:#111;stroke-width:4;fill:none}\n"
    ".primary{fill:#2f567d;stroke:#1b3550;stroke-width:1.5}\n"
    ".backup{fill:url(#hatch);stroke:#8a5412;stroke-width:1.5}\n"
    ".idle{fill:#fff;fill-opacity:.8;stroke:#777;stroke-dasharray:4 3}\n"
    ".label{fill:#fff}\n"
    ".on{fill:#fff;font-weight:bold;text-anchor:middle}\n"
    ".off{text-anchor:middle}\n"
    ".edge{stroke:#fff;stroke-width:6;fill:none;stroke-linecap:round}\n"
    ".cut{stroke:#b00020;stroke-width:3;fill:none;stroke-linecap:round}\n";

/* Only where there is a mark of it. */
static const char ready_style[] =
    ".ready{fill:#1f7a3a;stroke:#fff}\n"
    ".wait{stroke:#1f7a3a;stroke-width:2;fill:none}\n";

/* Only with a list of times. */
static const char open_style[] =
    ".open{fill:none;stroke:#555;stroke-width:1.2}\n";

/* Only where two started copies hold a node at once. */
static const char clash_style[] =
    ".clash{fill:#f0a39b}\n";

/* Only where there is a bracket. */
static const char supply_style[] =
    ".supply{stroke:#444;stroke-width:2;stroke-linejoin:round;fill:none}\n";

static const char patterns[] =
    "</style>\n"
    "<defs>\n"
    "<pattern id=\"hatch\" width=\"7\" height=\"7\" patternUnits=\"userSpaceOnUse\" "
    "patternTransform=\"rotate(45)\"><rect width=\"7\" height=\"7\" fill=\"#fbf3e4\"/>"
    "<rect width=\"2.2\" height=\"7\" fill=\"#d9a05b\"/></pattern>\n"
    "<pattern id=\"cross\" width=\"9\" height=\"9\" patternUnits=\"userSpaceOnUse\">"
    "<rect width=\"9\" height=\"9\" fill=\"#e3e3e3\"/>"
    "<path d=\"M0 0L9 9M9 0L0 9\" stroke=\"#b5b5b5\"/></pattern>\n"
    "</defs>\n";

void draw_styles(struct chart *c, double height)
{
    double wide = c->right + RIGHT;

    buffer_print(&c->svg, "<svg xmlns=\"http://www.w3.org/2000/svg\" role=\"img\" "
                 "width=\"%.0f\" height=\"%.0f\" viewBox=\"0 0 %.0f %.0f\">\n",
                 wide, height, wide, height);
    buffer_add(&c->svg, styles, sizeof styles - 1);
    if (has_ready_marks(c))
        buffer_add(&c->svg, ready_style, sizeof ready_style - 1);
    if (c->in->timed)
        buffer_add(&c->svg, open_style, sizeof open_style - 1);
    if (has_sharing(c, CLASH))
        buffer_add(&c->svg, clash_style, sizeof clash_style - 1);
    if (c->bracket_count > 0)
        buffer_add(&c->svg, supply_style, sizeof supply_style - 1);
    buffer_add(&c->svg, patterns, sizeof patterns - 1);
    buffer_print(&c->svg, "<rect width=\"%.0f\" height=\"%.0f\" fill=\"#fff\"/>\n",
                 wide, height);
}

/* How many primaries, or how many backups, have an outcome. */
static unsigned counted(const struct chart *c, uint32_t what, int backup)
{
    unsigned sum = 0;

    for (size_t i = 0; i < c->count; i++)
        if (outcome(c, &c->copies[i]) == what && c->copies[i].backup == backup)
            sum++;
    return sum;
}

static unsigned counted_sooner(const struct chart *c)
{
    unsigned sum = 0;

    for (size_t i = 0; i < c->count; i++)
        sum += is_sooner(c, &c->copies[i]);
    return sum;
}

static void add_subtitle(struct chart *c)
{
    if (is_run(c))
        buffer_print(&c->svg, "Primaries finished: %u. Backups finished: %u. "
                     "Copies cut: %u. ", counted(c, SEQOPCHI_FINISHED, 0),
                     counted(c, SEQOPCHI_FINISHED, 1),
                     counted(c, SEQOPCHI_CUT, 0) + counted(c, SEQOPCHI_CUT, 1));
    if (c->in->timed)
        buffer_print(&c->svg, "Finished sooner than listed: %u. ", counted_sooner(c));
    buffer_print(&c->svg, "The judge's answer to the plan: ");
    verdict_text(&c->svg, &c->in->job, &c->in->plan);
}

static void add_title(struct chart *c)
{
    buffer_print(&c->svg, is_run(c) ? "Run with " : "Plan");
    if (c->o->lose)
        add_loss(&c->svg, &c->in->job, c->o->group, c->o->tick);
    else if (is_run(c))
        buffer_print(&c->svg, "no loss");
    if (c->in->timed)
        buffer_print(&c->svg, ", actual times");
    buffer_print(&c->svg, ": %u tasks on %u nodes", (unsigned)c->tasks,
                 (unsigned)c->nodes);
}

void draw_title(struct chart *c)
{
    buffer_print(&c->svg, "<title>");
    add_title(c);
    buffer_print(&c->svg, "</title>\n<text class=\"title\" x=\"16\" y=\"28\">");
    add_title(c);
    buffer_print(&c->svg, "</text>\n<text x=\"16\" y=\"48\">");
    add_subtitle(c);
    buffer_print(&c->svg, ".</text>\n");
}

static void draw_node_line(struct chart *c, double x, double y, const char *what,
                           uint32_t number)
{
    buffer_print(&c->svg, "<text class=\"small\" x=\"%.0f\" y=\"%.1f\">%s %u</text>\n",
                 x, y, what, (unsigned)number);
}

/* A node's label: two lines, or three where the job has send times; two by two words
 * where it has groups. */
static void draw_node(struct chart *c, uint32_t node, double middle)
{
    const struct file *job = &c->in->job;
    bool sends = job_has(job, SEND), beside = job_has(job, GROUP);
    double x = c->label, y = sends && !beside ? middle - 8 : middle - 1;

    buffer_print(&c->svg, "<text class=\"node\" x=\"%.0f\" y=\"%.1f\">node %u</text>\n",
                 x, y, (unsigned)node);
    if (is_lost(c, node))
        draw_node_line(c, x, y + 14, "lost at", c->o->tick);
    else
        draw_node_line(c, x, y + 14, "detect", job_node(job, node, DETECT));
    if (sends)
        draw_node_line(c, beside ? x + GROUP_AT : x, beside ? y + 14 : y + 26, "send",
                       job_node(job, node, SEND));
    if (beside)
        draw_node_line(c, x + GROUP_AT, y, "group", job_node(job, node, GROUP));
}

/* The line between two lanes. */
static void draw_rule(struct chart *c, double y)
{
    buffer_print(&c->svg, "<path class=\"rule\" d=\"M%.0f %.1fH%.1f\"/>\n", c->label, y,
                 c->right);
}

static void draw_lane(struct chart *c, uint32_t node)
{
    double top = c->lane[node], bottom = c->lane[node + 1];

    if (node % 2 == 0)
        buffer_print(&c->svg, "<rect class=\"lane\" x=\"%.0f\" y=\"%.1f\" "
                     "width=\"%.1f\" height=\"%.1f\"/>\n", c->left, top,
                     c->right - c->left, bottom - top);
    draw_node(c, node, (top + bottom) / 2);
    draw_rule(c, bottom);
}

static void draw_axis(struct chart *c)
{
    double bottom = c->lane[c->nodes];

    for (uint32_t tick = 0; tick <= c->last; tick += c->step)
        buffer_print(&c->svg, "<path class=\"grid\" d=\"M%.1f %.1fV%.1f\"/>\n"
                     "<text class=\"small\" x=\"%.1f\" y=\"%.1f\" "
                     "text-anchor=\"middle\">%u</text>\n", x_of(c, tick), c->lane[0],
                     bottom + 4, x_of(c, tick), bottom + 17, (unsigned)tick);
    buffer_print(&c->svg, "<text class=\"small\" x=\"%.0f\" y=\"%.1f\" "
                 "text-anchor=\"end\">tick</text>\n", c->left - 12, bottom + 17);
}

void draw_lanes(struct chart *c)
{
    draw_rule(c, c->lane[0]);
    for (uint32_t node = 0; node < c->nodes; node++)
        draw_lane(c, node);
    draw_shared(c);
    draw_axis(c);
}

/* Behind the loss the lane is gone. */
static void draw_lost_lane(struct chart *c, uint32_t node)
{
    double x = x_of(c, c->o->tick), top = c->lane[node], bottom = c->lane[node + 1];

    buffer_print(&c->svg, "<rect class=\"gone\" x=\"%.1f\" y=\"%.1f\" width=\"%.1f\" "
                 "height=\"%.1f\"/>\n<path class=\"loss\" d=\"M%.1f %.1fV%.1f\"/>\n",
                 x, top + 1, c->right - x, bottom - top - 2, x, top, bottom);
}

/* In every lane of the group; a loss behind the axis leaves no mark. */
void draw_loss(struct chart *c)
{
    for (uint32_t node = 0; node < c->nodes; node++)
        if (is_lost(c, node) && c->o->tick <= c->last)
            draw_lost_lane(c, node);
}

static void draw_bar(struct chart *c, const char *class, double from, double to,
                     double top)
{
    buffer_print(&c->svg, "<rect class=\"%s\" x=\"%.1f\" y=\"%.1f\" width=\"%.1f\" "
                 "height=\"%d\" rx=\"2\"/>\n", class, from + .5, top,
                 to - from > 2 ? to - from - 1 : 1.0, BAR);
}

/* With a white edge, to be seen on a dark bar. */
static void draw_cross(struct chart *c, double x, double y)
{
    static const char *const class[] = { "edge", "cut" };

    for (int i = 0; i < 2; i++)
        buffer_print(&c->svg, "<path class=\"%s\" d=\"M%.1f %.1fl10 10m0 -10"
                     "l-10 10\"/>\n", class[i], x - 5, y - 5);
}

/* In the middle of a part of a bar; none where it would not fit. On the dark bar
 * of a primary it is white, on a hatched one it has a white patch. */
static bool draw_label(struct chart *c, const struct copy *copy, double from, double to,
                       double top, bool active)
{
    double middle = (from + to) / 2, wide = copy->task > 9 ? 26 : 19;

    if (to - from < wide)
        return false;
    if (active && copy->backup)
        buffer_print(&c->svg, "<rect class=\"label\" x=\"%.1f\" y=\"%.1f\" "
                     "width=\"%.1f\" height=\"16\" rx=\"2\"/>\n", middle - wide / 2,
                     top + 3, wide);
    buffer_print(&c->svg, "<text class=\"%s\" x=\"%.1f\" y=\"%.1f\">%s%u</text>\n",
                 active && !copy->backup ? "on" : "off", middle, top + 15.5,
                 copy->backup ? "B" : "P", (unsigned)copy->task);
    return true;
}

/* A hint for those who point at the copy. */
static void add_hint(struct chart *c, const struct copy *copy)
{
    const struct file *job = &c->in->job;

    buffer_print(&c->svg, "<title>%s of task %u: ", copy->backup ? "backup" : "primary",
                 (unsigned)copy->task);
    add_node_name(&c->svg, job, copy->node);
    buffer_print(&c->svg, ", %u to %u", (unsigned)copy->start, (unsigned)copy->finish);
    if (!copy->backup && has_ready(job_version(job)))
        buffer_print(&c->svg, ", ready %u", (unsigned)job_ready(job, copy->task));
    buffer_print(&c->svg, ", deadline %u", (unsigned)job_deadline(job, copy->task));
    if (is_run(c))
        buffer_print(&c->svg, ", %s", outcome_word(outcome(c, copy)));
    if (is_sooner(c, copy))
        buffer_print(&c->svg, " at %u", (unsigned)end_of(c, copy));
    buffer_print(&c->svg, "</title>\n");
}

/* The part that ran, the part that did not, and the cut between them; the label
 * stands in the wider part. */
static void draw_cut(struct chart *c, const struct copy *copy, double top)
{
    double from = x_of(c, copy->start), to = x_of(c, copy->finish);
    double at = x_of(c, c->o->tick);

    draw_bar(c, "idle", from, to, top);
    draw_bar(c, copy->backup ? "backup" : "primary", from, at, top);
    if (at - from > to - at)
        draw_label(c, copy, from, at - 6, top, true);
    else
        draw_label(c, copy, at + 6, to, top, false);
    draw_cross(c, at, top + BAR / 2.0);
}

/* The part that ran, in the outline of the listed one; the label stands in it, or where
 * it is too narrow for that in the open part. */
static void draw_sooner(struct chart *c, const struct copy *copy, double top)
{
    double from = x_of(c, copy->start), to = x_of(c, copy->finish);
    double at = x_of(c, end_of(c, copy));

    draw_bar(c, "open", from, to, top);
    draw_bar(c, copy->backup ? "backup" : "primary", from, at, top);
    if (!draw_label(c, copy, from, at, top, true))
        draw_label(c, copy, at, to, top, false);
}

static void draw_copy(struct chart *c, size_t i)
{
    const struct copy *copy = &c->copies[i];
    const char *class = copy->backup ? "backup" : "primary";
    double from = x_of(c, copy->start), to = x_of(c, copy->finish);
    double top = bar_top(c, i);
    bool finished = outcome(c, copy) == SEQOPCHI_FINISHED;

    buffer_print(&c->svg, "<g>");
    add_hint(c, copy);
    if (outcome(c, copy) == SEQOPCHI_CUT) {
        draw_cut(c, copy, top);
    } else if (is_sooner(c, copy)) {
        draw_sooner(c, copy, top);
    } else {
        draw_bar(c, finished ? class : "idle", from, to, top);
        draw_label(c, copy, from, to, top, finished);
    }
    buffer_print(&c->svg, "</g>\n");
}

void draw_copies(struct chart *c)
{
    for (size_t i = 0; i < c->count; i++)
        draw_copy(c, i);
}

static double legend_top(const struct chart *c)
{
    return c->lane[c->nodes] + AXIS - 8 + LEGEND_ROW * c->legend_row;
}

/* The words of a legend entry; gives the place of the next. */
static double draw_meaning(struct chart *c, double x, const char *what)
{
    buffer_print(&c->svg, "<text class=\"small\" x=\"%.1f\" y=\"%.1f\">%s</text>\n",
                 x, legend_top(c) + 12, what);
    return x + 6.0 * (double)strlen(what) + 18;
}

/* An entry with a box of the class as its sample. */
static double draw_entry(struct chart *c, double x, const char *class, const char *what)
{
    buffer_print(&c->svg, "<rect class=\"%s\" x=\"%.1f\" y=\"%.1f\" width=\"28\" "
                 "height=\"16\"/>\n", class, x, legend_top(c));
    return draw_meaning(c, x + 34, what);
}

/* What a copy can look like; gives the place of the next entry. */
static double draw_copy_entries(struct chart *c, double x)
{
    if (!is_run(c)) {
        x = draw_entry(c, x, "primary", "primary");
        return draw_entry(c, x, "backup", "backup");
    }
    x = draw_entry(c, x, "primary", "primary, finished");
    x = draw_entry(c, x, "backup", "backup, finished");
    if (c->in->timed)
        x = draw_entry(c, x, "open", "listed, not needed");
    if (c->o->lose) {
        draw_cross(c, x + 6, legend_top(c) + 8);
        x = draw_meaning(c, x + 18, "cut");
    }
    return draw_entry(c, x, "idle", "not started");
}

/* What the bands mean; gives the place of the next entry. */
static double draw_sharing_entries(struct chart *c, double x)
{
    bool clashes = has_sharing(c, CLASH);

    x = draw_entry(c, x, "shared", clashes || has_sharing(c, PRIMARY_SHARES)
                   ? "shared time" : "time shared by backups");
    return clashes ? draw_entry(c, x, "clash", "clash") : x;
}

void draw_legend(struct chart *c)
{
    double x = c->left;

    if (c->bracket_count > 0)
        draw_meaning(c, draw_supply_sign(c, EDGE + 1, legend_top(c)), "one supply");
    x = draw_copy_entries(c, x);
    if (c->in->timed) {
        c->legend_row++;
        x = c->left;
    }
    if (c->o->lose)
        x = draw_entry(c, x, "gone", "node lost");
    x = draw_sharing_entries(c, x);
    buffer_print(&c->svg, "<path class=\"pole\" d=\"M%.1f %.1fv16\"/>\n", x + 2,
                 legend_top(c));
    x = draw_meaning(c, x + 9, "deadline");
    if (has_ready_marks(c)) {
        draw_ready_mark(c, x + 8, legend_top(c), 16);
        draw_meaning(c, x + 15, "ready");
    }
}
