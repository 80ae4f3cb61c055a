/* explain: a sentence read back, and what its refusal means. */
#include "commands.h"

#include "refusal.h"

#include <errno.h>
#include <inttypes.h>
#include <stdio.h>
#include <string.h>

/* When a refusal is given, and what its places are: a word before each. No word for the
 * second where it is not used. */
struct meaning {
    const char *when, *first, *second;
};

/* In place of a word: the first place once more. */
static const char again[] = "again";

static const struct meaning meanings[] = {
    [SEQOPCHI_REFUSED_SHORT] =
    { "a file ends where a number is due, or within it: fewer than 4\n"
      "bytes are left.", "byte offset", NULL },
    [SEQOPCHI_REFUSED_VERSION] =
    { "the version of a job or a plan is none that the library knows.",
      "byte offset", NULL },
    [SEQOPCHI_REFUSED_COUNT] =
    { "a file says too few or too many nodes, tasks or links, or a plan not as\n"
      "many tasks as its job has.", "byte offset", NULL },
    [SEQOPCHI_REFUSED_VALUE] =
    { "a number in a file is too small or too large; also a link that does not\n"
      "lead to a higher task than it comes from.", "byte offset", NULL },
    [SEQOPCHI_REFUSED_LINK_ORDER] =
    { "the links of a file must rise, by the task that they come from and\n"
      "then by the task that they go to; this one does not.", "byte offset", NULL },
    [SEQOPCHI_REFUSED_TAIL] =
    { "bytes follow where a file should have ended.", "byte offset", NULL },
    [SEQOPCHI_REFUSED_UNABLE] =
    { "a plan or booking puts a copy on a node, or a log has it run there,\n"
      "where its task has run time 0: that node cannot run the task.",
      "byte offset", NULL },
    [SEQOPCHI_REFUSED_SAME_NODE] =
    { "the primary and the backup of a task are on one node, or on nodes of\n"
      "one supply group, and would be lost together (rule A).", "task", again },
    [SEQOPCHI_REFUSED_EARLY] =
    { "a backup starts sooner than its primary's finish plus the detect time of\n"
      "the primary's node, so before it is known to be needed (rule B).",
      "task", again },
    [SEQOPCHI_REFUSED_LATE] =
    { "a backup ends after the deadline of its task (rule C).", "task", again },
    [SEQOPCHI_REFUSED_PRIMARY_UNFED] =
    { "the primary of a task starts before the result of another task's\n"
      "primary, which it takes in, has arrived (rule D).",
      "result of task", "for task" },
    [SEQOPCHI_REFUSED_BACKUP_UNFED] =
    { "the backup of a task starts before a result that it takes in has\n"
      "arrived: that of the other task's primary, or of its backup where one loss can\n"
      "call on both backups (rule E).", "result of task", "for task" },
    [SEQOPCHI_REFUSED_COMMON_LOSS] =
    { "a loss that can stop the primary of a task, also by way of results\n"
      "that it then waits for in vain, takes the backup's node too (rule F).",
      "task", again },
    [SEQOPCHI_REFUSED_OVERLAP] =
    { "two copies hold one node at the same time, and they are not two backups\n"
      "of which no single loss calls on both (rule G).", "lower task", "higher task" },
    [SEQOPCHI_REFUSED_NO_PRIMARY] =
    { "planning, or asking for one more task, found no node and start for\n"
      "the primary that keep the rules and the deadline.", "task", again },
    [SEQOPCHI_REFUSED_NO_BACKUP] =
    { "planning, or asking for one more task, found no node and start for\n"
      "the backup that keep the rules and the deadline.", "task", again },
    [SEQOPCHI_REFUSED_SHORT_BUFFER] =
    { "a program left too little room for the answer; this tool never\n"
      "does.", "bytes needed:", NULL },
    [SEQOPCHI_REFUSED_NO_SUCH_NODE] =
    { "no node of the job is in the supply group that was named as lost.\n"
      "Up to job version 3 each node is a group by itself, with its number.",
      "group", NULL },
    [SEQOPCHI_REFUSED_TOO_SOON] =
    { "the primary of a task starts before the task's ready time.",
      "task", again },
    [SEQOPCHI_REFUSED_FULL] =
    { "one more task, or its links, would be more than a job can have.",
      "new task", NULL },
    [SEQOPCHI_REFUSED_STALE] =
    { "the place proposed for one more task breaks a rule beside the copies that\n"
      "the plan has by now; asking again gives another.", "new task", again },
    [SEQOPCHI_REFUSED_NOT_A_SENTENCE] =
    { "a text was to be read back that is no refusal's sentence, or a\n"
      "number told that is none of the table.",
      "length of the text, or that number:", NULL },
};

enum { MEANINGS = sizeof meanings / sizeof meanings[0] };

/* Any two places may stand in a sentence, also those that no call gives. */
static void add_second(struct buffer *b, const struct meaning *m, uint64_t first,
                       uint64_t second)
{
    uint64_t usual = m->second == again ? first : 0;

    buffer_print(b, "second place: ");
    if (m->second && m->second != again)
        buffer_print(b, "%s %" PRIu64 "\n", m->second, second);
    else if (second != usual)
        buffer_print(b, "%" PRIu64 ", unusual: each call gives %" PRIu64 " here\n",
                     second, usual);
    else if (m->second)
        buffer_print(b, "%s %" PRIu64 " again\n", m->first, second);
    else
        buffer_print(b, "not used\n");
}

/* The first line is that of the listing program. */
static void add_meaning(struct buffer *b, const uint64_t parts[3])
{
    const struct meaning *m;

    buffer_print(b, "refused %" PRIu64 " %" PRIu64 " %" PRIu64 "\n", parts[0], parts[1],
                 parts[2]);
    if (parts[0] >= MEANINGS) /* of a library that knows more */
        return;
    m = &meanings[parts[0]];
    buffer_print(b, "%s: %s\n", seqopchi_word((unsigned)parts[0]), m->when);
    buffer_print(b, "first place: %s %" PRIu64 "\n", m->first, parts[1]);
    add_second(b, m, parts[1], parts[2]);
}

/* The first line of standard input without its end; what follows is left alone. */
static int read_line(struct buffer *line)
{
    int byte;

    while ((byte = getchar()) != EOF && byte != '\n') {
        char c = (char)byte;

        if (line->length == TEXT_LIMIT)
            return failed("the first line is longer than %d bytes", TEXT_LIMIT);
        buffer_add(line, &c, 1);
    }
    if (ferror(stdin))
        return failed("cannot read 'standard input': %s", strerror(errno));
    if (byte == '\n' && line->length > 0 && line->data[line->length - 1] == '\r')
        line->length--;
    return 0;
}

/* The text in question, to the byte: the library decides what is a sentence. */
static int take_text(struct buffer *text, const char *word)
{
    int status = 0;

    if (is_dash(word))
        status = read_line(text);
    else
        buffer_add(text, word, strlen(word));
    if (status)
        buffer_free(text);
    else /* no spare bytes, so that a sanitizer sees a read too far */
        text->data = reallocated(text->data, text->length);
    return status;
}

int run_explain(const struct options *o)
{
    struct buffer text = { NULL, 0, 0 }, meaning = { NULL, 0, 0 };
    uint64_t parts[3], result;
    int status = take_text(&text, o->path[0]);

    if (status)
        return status;
    result = seqopchi_read_sentence((const uint8_t *)text.data, text.length, parts);
    buffer_free(&text);
    if (result)
        return refused(result, NULL, NULL);
    add_meaning(&meaning, parts);
    return finish_output(o, &meaning);
}
