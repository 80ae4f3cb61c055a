/* The supply groups of a chart: a bracket left of the lanes that one loss takes
 * together. It points at each of its nodes, since others may lie between them. */
#include "chart.h"

#include "groups.h"

enum { POINTER = 9 };

/* Whether one set of nodes ends before the other begins. */
static bool lie_apart(uint32_t left, uint32_t right)
{
    return left < (right & -right) || right < (left & -left);
}

static bool is_taken(const struct chart *c, const struct bracket *b)
{
    for (size_t i = 0; i < c->bracket_count; i++)
        if (c->brackets[i].column == b->column
            && !lie_apart(c->brackets[i].nodes, b->nodes))
            return true;
    return false;
}

/* Only where the job says groups can one have several nodes. */
unsigned place_brackets(struct chart *c)
{
    unsigned columns = 0;

    c->bracket_count = 0;
    for (uint32_t group = 0; group <= SEQOPCHI_MAX_GROUP; group++) {
        struct bracket b = { group, nodes_of_group(&c->in->job, group), 0 };

        if (!has_several(b.nodes))
            continue;
        while (is_taken(c, &b))
            b.column++;
        if (b.column >= columns)
            columns = b.column + 1;
        c->brackets[c->bracket_count++] = b;
    }
    return columns;
}

/* From the middle of its first lane to that of its last. */
static void draw_bracket(struct chart *c, const struct bracket *b)
{
    double x = c->label - BRACKET * (b->column + 1.0) + 1;
    const char *to = "M";

    buffer_print(&c->svg, "<path class=\"supply\" d=\"");
    for (uint32_t node = 0; node < c->nodes; node++) {
        double y = (c->lane[node] + c->lane[node + 1]) / 2;

        if (!(b->nodes >> node & 1))
            continue;
        buffer_print(&c->svg, "%s%.1f %.1fh%dh-%d", to, x, y, POINTER, POINTER);
        to = "L";
    }
    buffer_print(&c->svg, "\"><title>group %u: ", (unsigned)b->group);
    add_nodes_of_group(&c->svg, &c->in->job, b->group);
    buffer_print(&c->svg, "</title></path>\n");
}

void draw_brackets(struct chart *c)
{
    for (size_t i = 0; i < c->bracket_count; i++)
        draw_bracket(c, &c->brackets[i]);
}

/* Below the names of the nodes: the sign and its meaning. */
double draw_supply_sign(struct chart *c, double x, double top)
{
    buffer_print(&c->svg, "<path class=\"supply\" d=\"M%.1f %.1fh-%dv12h%d\"/>\n",
                 x + POINTER, top + 2, POINTER, POINTER);
    return x + POINTER + 6;
}
