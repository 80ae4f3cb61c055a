/* A chart: what is drawn, and where. */
#ifndef TOOL_CHART_H
#define TOOL_CHART_H

#include "commands.h"
#include "layout.h"
#include "seqopchi.h"

/* Measures in pixels. */
enum {
    EDGE = 16, BRACKET = 18, NAME = 76, GROUP_AT = 70, GROUP_NAME = 60,
    RIGHT = 28, HEAD = 66, FLAG_ROW = 18,
    ROW = 28, BAR = 22, LANE_EDGE = 6, AXIS = 40, LEGEND_ROW = 28,
    PLOT_LEAST = 880, PLOT_MOST = 1880, BAR_LEAST = 26
};

/* A deadline's flag; its row is counted from the lanes upward. */
struct flag {
    uint32_t tick;
    double from, to;
    unsigned row;
};

/* A supply group of several nodes; its column is counted from the names leftward. */
struct bracket {
    uint32_t group, nodes;
    unsigned column;
};

struct chart {
    const struct input *in;
    const struct options *o;
    struct file run;     /* replay's numbers; null data for a plan */
    struct copy *copies; /* by node, then start */
    unsigned *row;       /* of each copy, within its node's lane */
    size_t count;
    unsigned *rows;      /* of each node's lane, at least 1 */
    double *lane;        /* top of each lane, then the bottom of the last */
    struct flag *flags;  /* one for each tick that is a deadline */
    size_t flag_count;
    uint32_t nodes, tasks;
    uint32_t step, last; /* of the axis; the last tick is a multiple of step */
    double label;        /* where the names of the nodes begin */
    double left, right;  /* edges of the plot */
    struct bracket brackets[SEQOPCHI_MAX_NODES / 2];
    size_t bracket_count;
    unsigned legend_row; /* the one that is drawn; with a list of times there are two */
    struct buffer svg;
};

double x_of(const struct chart *c, uint32_t tick);
double bar_top(const struct chart *c, size_t copy);
bool is_lost(const struct chart *c, uint32_t node);

/* Whether the run is drawn, and not the plan. */
bool is_run(const struct chart *c);

/* What became of a copy; in a chart of the plan each counts as finished. */
uint32_t outcome(const struct chart *c, const struct copy *copy);

/* When a finished copy ended: as listed, or sooner by the list of times. */
uint32_t end_of(const struct chart *c, const struct copy *copy);
bool is_sooner(const struct chart *c, const struct copy *copy);

/* Finds a place for each flag; gives the height that they take together. */
double place_flags(struct chart *c);

/* How two copies of one node share time: backups alone, a backup with a primary, or, in
 * a run, both started. */
enum sharing { APART, BACKUPS_SHARE, PRIMARY_SHARES, CLASH };

bool has_sharing(const struct chart *c, enum sharing what);
void draw_shared(struct chart *c);

/* Whether the chart has a mark where some task becomes ready. */
bool has_ready_marks(const struct chart *c);
/* The mark of the tick at x, over a height from top on. */
void draw_ready_mark(struct chart *c, double x, double top, double height);

/* Finds a place for each bracket; gives the columns that they take together. */
unsigned place_brackets(struct chart *c);
void draw_brackets(struct chart *c);
/* The sign of one; gives the place of its meaning. */
double draw_supply_sign(struct chart *c, double x, double top);

void draw_styles(struct chart *c, double height);
void draw_title(struct chart *c);
void draw_lanes(struct chart *c);
void draw_loss(struct chart *c);
void draw_poles(struct chart *c);
void draw_copies(struct chart *c);
void draw_ready_marks(struct chart *c);
void draw_flags(struct chart *c);
void draw_legend(struct chart *c);

#endif
