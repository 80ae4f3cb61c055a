/* The ticks that copies of one node share, as bands behind them. */
#include "chart.h"

/* Up to where a started copy holds its node in the run. */
static uint32_t held_to(const struct chart *c, const struct copy *copy)
{
    return outcome(c, copy) == SEQOPCHI_CUT ? c->o->tick : end_of(c, copy);
}

static uint32_t later(uint32_t a, uint32_t b)
{
    return a > b ? a : b;
}

static uint32_t sooner(uint32_t a, uint32_t b)
{
    return a < b ? a : b;
}

static bool clash(const struct chart *c, const struct copy *a, const struct copy *b)
{
    return is_run(c) && is_started(&c->run, a) && is_started(&c->run, b)
        && later(a->start, b->start) < sooner(held_to(c, a), held_to(c, b));
}

/* In a plan two primaries have no band: no run can do with both. */
static enum sharing sharing_of(const struct chart *c, const struct copy *a,
                               const struct copy *b)
{
    if (a->node != b->node || later(a->start, b->start) >= sooner(a->finish, b->finish))
        return APART;
    if (clash(c, a, b))
        return CLASH;
    if (a->backup && b->backup)
        return BACKUPS_SHARE;
    return a->backup || b->backup ? PRIMARY_SHARES : APART;
}

bool has_sharing(const struct chart *c, enum sharing what)
{
    for (size_t i = 0; i < c->count; i++)
        for (size_t k = i + 1; k < c->count; k++)
            if (sharing_of(c, &c->copies[i], &c->copies[k]) == what)
                return true;
    return false;
}

static void draw_band(struct chart *c, const char *class, const struct copy *a,
                      uint32_t from, uint32_t to)
{
    double top = c->lane[a->node], bottom = c->lane[a->node + 1];

    buffer_print(&c->svg, "<rect class=\"%s\" x=\"%.1f\" y=\"%.1f\" width=\"%.1f\" "
                 "height=\"%.1f\"/>\n", class, x_of(c, from), top + 1,
                 x_of(c, to) - x_of(c, from), bottom - top - 2);
}

/* The pairs of one kind: a clash lies above what is merely shared. */
static void draw_pairs(struct chart *c, bool clashes)
{
    for (size_t i = 0; i < c->count; i++)
        for (size_t k = i + 1; k < c->count; k++) {
            const struct copy *a = &c->copies[i], *b = &c->copies[k];
            enum sharing what = sharing_of(c, a, b);
            uint32_t from = later(a->start, b->start);

            if (what == APART || (what == CLASH) != clashes)
                continue;
            if (clashes)
                draw_band(c, "clash", a, from, sooner(held_to(c, a), held_to(c, b)));
            else
                draw_band(c, "shared", a, from, sooner(a->finish, b->finish));
        }
}

void draw_shared(struct chart *c)
{
    draw_pairs(c, false);
    draw_pairs(c, true);
}
