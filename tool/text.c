/* A text taken apart into lines and words; # begins a comment. */
#include "text.h"

#include <stdarg.h>
#include <stdio.h>
#include <string.h>

struct word {
    const char *at;
    size_t length;
};

int check_text_length(const struct file *f)
{
    if (f->length <= TEXT_LIMIT || begins_with(f, "log"))
        return 0;
    return failed("'%s' is longer than %d bytes", f->name, TEXT_LIMIT);
}

struct text text_of(const struct file *f)
{
    struct text t;

    t.name = f->name;
    t.at = t.line_end = (const char *)f->data;
    t.end = t.at + f->length;
    t.line = 0;
    t.wrong = false;
    return t;
}

void text_fault(struct text *t, const char *format, ...)
{
    va_list words;

    if (t->wrong)
        return;
    t->wrong = true;
    fprintf(stderr, "seqopchi: '%s', line %u: ", t->name, t->line);
    va_start(words, format);
    vfprintf(stderr, format, words);
    va_end(words);
    fputc('\n', stderr);
}

static bool is_space(char c)
{
    return c == ' ' || c == '\t' || c == '\r';
}

/* The next word of the line, of length 0 at its end. */
static struct word peek(struct text *t)
{
    struct word w;

    while (t->at < t->line_end && is_space(*t->at))
        t->at++;
    if (t->at < t->line_end && *t->at == '#')
        t->at = t->line_end;
    w.at = t->at;
    w.length = 0;
    while (w.at + w.length < t->line_end && !is_space(w.at[w.length])
           && w.at[w.length] != '#')
        w.length++;
    return w;
}

static void start_line(struct text *t)
{
    const char *stop;

    t->at = t->line_end;
    if (t->line > 0)
        t->at++; /* behind the line end */
    stop = memchr(t->at, '\n', (size_t)(t->end - t->at));
    t->line_end = stop ? stop : t->end;
    t->line++;
}

bool next_line(struct text *t)
{
    while (!t->wrong && (t->line == 0 || t->line_end < t->end)) {
        start_line(t);
        if (peek(t).length > 0)
            return true;
    }
    return false;
}

bool at_line_end(struct text *t)
{
    return t->wrong || peek(t).length == 0;
}

/* A word of a damaged text may hold anything: only what prints is shown. */
static void expected(struct text *t, const char *what, struct word found)
{
    char shown[32];
    size_t length = found.length < sizeof shown ? found.length : sizeof shown - 1;

    for (size_t i = 0; i < length; i++)
        shown[i] = found.at[i] > ' ' && found.at[i] <= '~' ? found.at[i] : '?';
    shown[length] = '\0';
    if (length == 0)
        text_fault(t, "expected %s, but the line ends", what);
    else
        text_fault(t, "expected %s, found '%s'", what, shown);
}

static bool is_word(struct word found, const char *word)
{
    return found.length == strlen(word) && memcmp(found.at, word, found.length) == 0;
}

bool took_word(struct text *t, const char *word)
{
    struct word found = peek(t);

    if (t->wrong || !is_word(found, word))
        return false;
    t->at += found.length;
    return true;
}

bool begins_with(const struct file *f, const char *word)
{
    struct text t = text_of(f);

    return next_line(&t) && took_word(&t, word);
}

void take_word(struct text *t, const char *word)
{
    char what[40];

    if (took_word(t, word))
        return;
    snprintf(what, sizeof what, "'%s'", word);
    expected(t, what, peek(t));
}

bool parse_number(const char *digits, size_t length, uint32_t *value)
{
    uint64_t sum = 0;

    for (size_t i = 0; i < length; i++) {
        if (digits[i] < '0' || digits[i] > '9')
            return false;
        sum = 10 * sum + (uint64_t)(digits[i] - '0');
        if (sum > UINT32_MAX)
            return false;
    }
    *value = (uint32_t)sum;
    return length > 0;
}

uint32_t take_number(struct text *t, const char *what)
{
    struct word found = peek(t);
    uint32_t value = 0;

    if (parse_number(found.at, found.length, &value))
        t->at += found.length;
    else
        expected(t, what, found);
    return value;
}

void take_index(struct text *t, const char *what, size_t index)
{
    struct word found = peek(t);
    char number[40];
    uint32_t value;

    if (parse_number(found.at, found.length, &value) && value == index) {
        t->at += found.length;
        return;
    }
    snprintf(number, sizeof number, "%s %zu", what, index);
    expected(t, number, found);
}

void take_line_end(struct text *t)
{
    struct word found = peek(t);

    if (found.length > 0)
        expected(t, "the end of the line", found);
}
