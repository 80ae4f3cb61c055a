/* A log of the last runs: which copy took how long, as text or packed (TEXT.md). */
#include "log.h"

#include "refusal.h"

#include <string.h>

/* What is packed is not read on behind its first fault: that is the answer, however long
 * a file, or a stream without end, was taken for a log. */
bool log_goes_on(const struct file *so_far, const struct file *job)
{
    struct file records = *so_far;

    if (!job || !is_packed(so_far))
        return begins_with(so_far, "log");
    records.length -= records.length % SEQOPCHI_LOG_RECORD_BYTES;
    return ask_log(job, &records) == 0;
}

/* An empty file is a packed log without records. */
int log_read(struct source *log, const char *path, const struct file *job)
{
    struct text text;
    int status;

    memset(log, 0, sizeof *log);
    status = file_read_on(&log->given, path, TEXT_LIMIT + 1, log_goes_on, job);
    if (status)
        return status;
    log->file = log->given;
    log->is_text = log->given.length > 0 && !is_packed(&log->given);
    if (!log->is_text)
        return 0;
    status = check_text_length(&log->given);
    if (status)
        return status;
    text = source_text(log, "log");
    pack_log(&text, &log->packed);
    return source_packed(log, &text);
}

/* task TASK node NODE took TICKS */
static void pack_record(struct text *t, struct section *to)
{
    take_word(t, "task");
    section_add(to, take_number(t, "the task that ran"), t->line);
    take_word(t, "node");
    section_add(to, take_number(t, "the node that it ran on"), t->line);
    take_word(t, "took");
    section_add(to, take_number(t, "the ticks that it took"), t->line);
    take_line_end(t);
    to->entries++;
}

void pack_log(struct text *t, struct section *to)
{
    take_line_end(t);
    while (next_line(t))
        pack_record(t, to);
}
