/* Supply groups: the nodes that one loss takes together, as sets and in words. Up to
 * job version 3 each node is a group by itself, and the words speak of nodes alone. */
#ifndef TOOL_GROUPS_H
#define TOOL_GROUPS_H

#include "files.h"

/* Bit n for node n, and bit q for group q. */
uint32_t nodes_of_group(const struct file *job, uint32_t group);
uint32_t groups_of_job(const struct file *job);
bool has_several(uint32_t set);

/* Every bit of a set, "0, 2, 5" where ", " stands between. */
void add_set(struct buffer *b, uint32_t set, const char *between);

/* "node 1", with " (group 5)" behind it where the job says groups. */
void add_node_name(struct buffer *b, const struct file *job, uint32_t node);
/* "nodes 1, 2", or "node 1" */
void add_nodes_of_group(struct buffer *b, const struct file *job, uint32_t group);
/* "group 5 lost at tick 16", or "node 1 lost at tick 16" */
void add_loss(struct buffer *b, const struct file *job, uint32_t group, uint32_t tick);

#endif
