/* seqopchi: the command line over judge, trial, planner, replay, fault sets, booking,
 * run times from the last runs and the reading of refusals' sentences. */
#include "commands.h"

#include "seqopchi.h"
#include "text.h"

#include <signal.h>
#include <stdio.h>
#include <string.h>

#define TOOL_VERSION "1.8"

enum {
    OUTPUT = 1, OUTPUT_DUE = 2, LOSS = 4, JOB = 8, TWO_OUTPUTS = 16, PLAN = 32,
    TIMES = 64, LOG = 128, NEW = 256, SENTENCE = 512
};

static const struct { const char *word; int option; } option_words[] = {
    { "-o", OUTPUT }, { "--lose", LOSS }, { "--job", JOB }, { "--plan", PLAN },
    { "--times", TIMES }, { "--log", LOG }, { "--new", NEW }
};

struct command {
    const char *name;
    int (*run)(const struct options *o);
    int least, most; /* file names, or a sentence */
    int takes;       /* options */
    const char *usage, *subject, *help;
};

static const struct command commands[] = {
    { "plan", run_plan, 1, 1, OUTPUT | OUTPUT_DUE, "plan JOB -o PLAN",
      "plan a job",
      "Plans the job and writes the plan file.\n" },
    { "judge", run_judge, 2, 2, OUTPUT, "judge JOB PLAN",
      "judge a plan for its job",
      "Prints 'passed' if the plan keeps every rule.\n" },
    { "trial", run_trial, 2, 2, OUTPUT, "trial JOB PLAN",
      "try a plan with every loss at every tick",
      "Prints 'yes' if without loss every primary finishes, and if with no loss and\n"
      "with the loss of any supply group at any tick each task is done by its deadline\n"
      "and no two started copies overlap on one node, by the listed run times. Else\n"
      "prints 'no', a run that shows it, what goes wrong there, and the commands that\n"
      "print and draw it; the exit status is then 3. A plan that passes the judge gets\n"
      "a yes, and so may one that is refused as overlap: a primary and a backup may\n"
      "share time if no loss has both started.\n" },
    { "replay", run_replay, 2, 2, OUTPUT | LOSS | TIMES,
      "replay JOB PLAN [--lose GROUP@TICK] [--times TIMES]",
      "run a plan, with or without a loss",
      "Prints what becomes of each copy, without a loss or with the loss of all\n"
      "nodes of supply group GROUP at tick TICK. Up to job version 3 each node is a\n"
      "group by itself, and GROUP is its number. With --times each copy takes as long\n"
      "as the list TIMES says, as text or packed: from 1 tick to its listed run time,\n"
      "and its start remains the plan's. The plan need not pass the judge.\n" },
    { "list", run_list, 1, 1, OUTPUT, "list JOB",
      "plan a job and print the listing",
      "Prints a line for each task: task, primary node, start, backup node,\n"
      "start. After a refusal it prints 'refused', number and both places.\n" },
    { "show", run_show, 1, 2, OUTPUT | NEW, "show JOB [PLAN] [--new JOB2]",
      "print a job, and a plan, as readable text",
      "Prints the job and, with a plan, the judge's answer, the places by task\n"
      "and the copies of each node in order of time. With --new the job is compared\n"
      "with JOB2: beneath each task stand the run times that differ there, and behind\n"
      "the links all else that does. A plan is then judged for both jobs.\n" },
    { "trace", run_trace, 2, 2, OUTPUT, "trace JOB PLAN",
      "tell how the fault sets come about, task by task",
      "Prints the judge's answer; then, for each task in turn, the links that arrive\n"
      "at it and its fault set, the supply groups whose loss can stop its primary (up\n"
      "to job version 3: the nodes). The set begins with the group of the primary's\n"
      "node. A link is strong if the result of the sender's backup is there by the\n"
      "primary's start, else weak; a weak link brings the sender's set. The plan need\n"
      "not pass the judge.\n" },
    { "pack", run_pack, 1, 1, OUTPUT | OUTPUT_DUE | JOB | PLAN,
      "pack TEXT -o FILE [--job JOB [--plan PLAN]]",
      "make a job, plan, task, times or log file from text",
      "Writes the file that the text stands for; its first word says whether it\n"
      "is a job, a plan, a task, a list of times or a log. A job must read well, and so\n"
      "must a plan or log if its job is named by --job, and a list of times if its job\n"
      "and plan are named by --job and --plan. For a task --job is due. The text form\n"
      "is described in tool/TEXT.md.\n" },
    { "unpack", run_unpack, 1, 3, OUTPUT | TIMES | LOG,
      "unpack JOB [PLAN [TASK | --times TIMES] | --log LOG] [-o TEXT]",
      "make text from a job, plan, task, times or log file",
      "Prints the text form of the last file that is given; that of a job in its\n"
      "own version. With a task the plan must pass the judge. A list of times stands\n"
      "behind --times and a log behind --log: no packed file says what it is.\n" },
    { "chart", run_chart, 2, 2, OUTPUT | OUTPUT_DUE | LOSS | TIMES,
      "chart JOB PLAN [--lose GROUP@TICK] [--times TIMES] -o FILE.svg",
      "draw a plan, or its run",
      "Draws a lane for each node with its copies, deadlines and ready times, and a\n"
      "bracket for the nodes on one supply. With --lose or --times it draws the run:\n"
      "what was finished, cut and not started. GROUP is a supply group; up to job\n"
      "version 3 it is the number of a node. TIMES is a list of times, as for replay:\n"
      "what a copy did not need of its listed run time is drawn open.\n" },
    { "ask", run_ask, 3, 3, OUTPUT, "ask JOB PLAN TASK",
      "ask where one more task would go",
      "Prints the places that the planner would give one more task beside a plan\n"
      "that passes the judge. Nothing is booked. TASK is a description, as text or\n"
      "packed. The last line, 'place ..', makes a booking of its text for commit.\n" },
    { "commit", run_commit, 3, 3, OUTPUT | OUTPUT_DUE | TWO_OUTPUTS,
      "commit JOB PLAN TASK -o JOB2 PLAN2",
      "book one more task",
      "Books one more task beside a plan that passes the judge: writes the longer\n"
      "job and the longer plan, both or none, and prints what was booked. TASK is a\n"
      "description or a booking, as text or packed; without a place it gets the one\n"
      "that ask would print. JOB2 and PLAN2 may be JOB and PLAN, and neither is -.\n" },
    { "times", run_times, 2, 2, OUTPUT | OUTPUT_DUE, "times JOB LOG -o JOB2",
      "take run times from the log of the last runs",
      "Writes the job with the run times of the log, as text or packed, and prints\n"
      "those that changed; if JOB2 is -, it prints only the job. Of the newest 256\n"
      "records the largest ticks of a task on a node are its run time there; where\n"
      "there is none, the job's stays. Older records count no more, but are read too.\n"
      "A node that cannot run a task stays so, and a record of it is refused. JOB2 may\n"
      "be JOB. show JOB --new JOB2 compares both.\n" },
    { "explain", run_explain, 1, 1, OUTPUT | SENTENCE, "explain SENTENCE",
      "tell what a refusal means",
      "Reads back the sentence of a refusal, as the library's seqopchi_sentence has\n"
      "it: prints 'refused', its number and both places, then when it is given and\n"
      "what the places are. SENTENCE is one word, in quotes; - reads the first line\n"
      "of standard input. A text that is no refusal's sentence, to the byte, is\n"
      "refused.\n" },
};

enum { COMMANDS = sizeof commands / sizeof commands[0] };

static const char closing[] =
    "\nFILES named - are standard input or output. An output file appears whole\n"
    "or not at all. Exit status: 0 success; 1 refused, with the reason on standard\n"
    "error; 2 wrong usage, or a file that could not be read or written; 3 the trial\n"
    "says no.\n";

static int print(struct buffer *b)
{
    int status = file_write("-", b->data, b->length);

    buffer_free(b);
    return status;
}

/* A usage that is too long for its column has its subject on the next line. */
static void add_command(struct buffer *b, const struct command *c)
{
    enum { COLUMN = 47 };

    buffer_print(b, "  %-*s", COLUMN, c->usage);
    if (strlen(c->usage) > COLUMN)
        buffer_print(b, "\n  %*s", COLUMN, "");
    buffer_print(b, " %s\n", c->subject);
}

static int general_help(void)
{
    struct buffer b = { NULL, 0, 0 };

    buffer_print(&b, "Usage: seqopchi COMMAND FILES..\n"
                     "Rack plans with a standby for every task.\n\n");
    for (int i = 0; i < COMMANDS; i++)
        add_command(&b, &commands[i]);
    buffer_print(&b, "\n'seqopchi COMMAND --help' tells more of each; "
                     "'seqopchi --version' tells the version\n"
                     "and those of the files that it knows.\n%s", closing);
    return print(&b);
}

static int command_help(const struct command *c)
{
    struct buffer b = { NULL, 0, 0 };

    buffer_print(&b, "Usage: seqopchi %s\n%s", c->usage, c->help);
    if (!(c->takes & OUTPUT_DUE))
        buffer_print(&b, "-o FILE writes to a file instead of standard output.\n");
    buffer_print(&b, "%s", closing);
    return print(&b);
}

static int wrong_usage(const struct command *c, const char *what, const char *word)
{
    if (word)
        failed("%s '%s'", what, word);
    else
        failed("%s", what);
    if (c)
        fprintf(stderr, "Usage: seqopchi %s\n", c->usage);
    else
        fputs("'seqopchi --help' lists the commands\n", stderr);
    return 2;
}

/* GROUP@TICK, each any 4-byte number: the library says whether there is the group. */
static bool parse_loss(struct options *o, const char *word)
{
    const char *sign = strchr(word, '@');

    o->lose = true;
    return sign && parse_number(word, (size_t)(sign - word), &o->group)
        && parse_number(sign + 1, strlen(sign + 1), &o->tick);
}

/* Behind -o, where a command has two outputs. */
static int take_second_output(const struct command *c, struct options *o,
                              const char *word)
{
    if (!word)
        return wrong_usage(c, "a second file name is missing behind", "-o");
    o->second_output = word;
    return 0;
}

/* Which option of the command a word is, or 0. */
static int option_of(const struct command *c, const char *word)
{
    for (size_t i = 0; i < sizeof option_words / sizeof option_words[0]; i++)
        if (strcmp(word, option_words[i].word) == 0)
            return c->takes & option_words[i].option;
    return 0;
}

/* Where the file name behind an option goes; null for the loss, which is none. */
static const char **file_of(struct options *o, int option)
{
    switch (option) {
    case OUTPUT:
        return &o->output;
    case JOB:
        return &o->job;
    case PLAN:
        return &o->plan;
    case TIMES:
        return &o->times;
    case LOG:
        return &o->log;
    case NEW:
        return &o->new_job;
    default:
        return NULL;
    }
}

/* The option at words[0], whose value is words[1]: 0, or 2 after a message. */
static int take_option(const struct command *c, struct options *o, char **words)
{
    int option = option_of(c, words[0]);
    const char **file = file_of(o, option);

    if (!option)
        return wrong_usage(c, "there is no option", words[0]);
    if (!words[1])
        return wrong_usage(c, "a value is missing behind", words[0]);
    if (file ? *file != NULL : o->lose)
        return wrong_usage(c, "given twice:", words[0]);
    if (option == OUTPUT && c->takes & TWO_OUTPUTS
        && take_second_output(c, o, words[2]))
        return 2;
    if (file)
        *file = words[1];
    else if (!parse_loss(o, words[1]))
        return wrong_usage(c, "expected GROUP@TICK in base ten, found", words[1]);
    return 0;
}

static int take_path(const struct command *c, struct options *o, const char *word)
{
    if (o->paths == c->most)
        return wrong_usage(c, c->takes & SENTENCE
                           ? "a sentence is one word, in quotes; found behind it:"
                           : "one file name too many:", word);
    o->path[o->paths++] = word;
    return 0;
}

static int dashes(const struct options *o)
{
    const char *const named[] = { o->job, o->plan, o->times, o->log, o->new_job };
    int count = 0;

    for (size_t i = 0; i < sizeof named / sizeof named[0]; i++)
        count += named[i] && is_dash(named[i]);
    for (int i = 0; i < o->paths; i++)
        count += is_dash(o->path[i]);
    return count;
}

/* What was booked is told on standard output. */
static int check_two_outputs(const struct command *c, const struct options *o)
{
    if (is_dash(o->output) || is_dash(o->second_output))
        return wrong_usage(c, "standard output is none of the two files", NULL);
    if (same_file(o->output, o->second_output))
        return wrong_usage(c, "the two files are one:", o->second_output);
    return 0;
}

static int check_options(const struct command *c, struct options *o)
{
    if (o->paths < c->least)
        return wrong_usage(c, c->takes & SENTENCE ? "the sentence is missing"
                           : "a file name is missing", NULL);
    if (!o->output && c->takes & OUTPUT_DUE)
        return wrong_usage(c, "-o FILE is missing", NULL);
    if (o->times && o->paths != 2)
        return wrong_usage(c, "--times goes with a job and a plan", NULL);
    if (o->log && o->paths != 1)
        return wrong_usage(c, "--log goes with a job alone", NULL);
    if (dashes(o) > 1)
        return wrong_usage(c, "standard input can be only one of the files", NULL);
    if (!o->output)
        o->output = "-";
    return o->second_output ? check_two_outputs(c, o) : 0;
}

static int run_command(const struct command *c, char **words)
{
    struct options o = { .paths = 0 };
    bool options_end = false;
    int status = 0;

    for (; *words && status == 0; words++) {
        if (options_end || (*words)[0] != '-' || is_dash(*words))
            status = take_path(c, &o, *words);
        else if (strcmp(*words, "--help") == 0)
            return command_help(c);
        else if (strcmp(*words, "--") == 0)
            options_end = true;
        else if ((status = take_option(c, &o, words)) == 0)
            words += o.second_output ? 2 : 1; /* -o is such a command's only option */
    }
    if (status == 0)
        status = check_options(c, &o);
    return status ? status : c->run(&o);
}

static int print_version(void)
{
    struct buffer b = { NULL, 0, 0 };

    buffer_print(&b, "seqopchi %s, for job files of versions 1 to %d and plan files "
                 "of version %d\n", TOOL_VERSION, SEQOPCHI_NEWEST_JOB_VERSION,
                 SEQOPCHI_PLAN_VERSION);
    return print(&b);
}

int main(int argc, char **argv)
{
    signal(SIGPIPE, SIG_IGN); /* a closed pipe is a failed write */
    if (argc < 2)
        return wrong_usage(NULL, "a command is missing", NULL);
    if (strcmp(argv[1], "--help") == 0)
        return general_help();
    if (strcmp(argv[1], "--version") == 0)
        return print_version();
    for (int i = 0; i < COMMANDS; i++)
        if (strcmp(argv[1], commands[i].name) == 0)
            return run_command(&commands[i], argv + 2);
    return wrong_usage(NULL, "there is no command", argv[1]);
}
