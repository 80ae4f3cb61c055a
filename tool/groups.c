/* Supply groups: the nodes that one loss takes together, as sets and in words. */
#include "groups.h"

#include "layout.h"
#include "seqopchi.h"

uint32_t nodes_of_group(const struct file *job, uint32_t group)
{
    uint32_t nodes = job_nodes(job), set = 0;

    for (uint32_t node = 0; node < nodes; node++)
        if (job_group(job, node) == group)
            set |= UINT32_C(1) << node;
    return set;
}

uint32_t groups_of_job(const struct file *job)
{
    uint32_t set = 0;

    for (uint32_t group = 0; group <= SEQOPCHI_MAX_GROUP; group++)
        if (nodes_of_group(job, group))
            set |= UINT32_C(1) << group;
    return set;
}

bool has_several(uint32_t set)
{
    return set & (set - 1);
}

void add_set(struct buffer *b, uint32_t set, const char *between)
{
    for (unsigned bit = 0; set > 0; bit++, set >>= 1)
        if (set & 1)
            buffer_print(b, "%u%s", bit, set > 1 ? between : "");
}

void add_node_name(struct buffer *b, const struct file *job, uint32_t node)
{
    buffer_print(b, "node %u", (unsigned)node);
    if (job_has(job, GROUP))
        buffer_print(b, " (group %u)", (unsigned)job_group(job, node));
}

void add_nodes_of_group(struct buffer *b, const struct file *job, uint32_t group)
{
    uint32_t nodes = nodes_of_group(job, group);

    buffer_print(b, has_several(nodes) ? "nodes " : "node ");
    add_set(b, nodes, ", ");
}

void add_loss(struct buffer *b, const struct file *job, uint32_t group, uint32_t tick)
{
    buffer_print(b, "%s %u lost at tick %u", job_has(job, GROUP) ? "group" : "node",
                 (unsigned)group, (unsigned)tick);
}
