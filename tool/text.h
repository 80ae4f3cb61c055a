/* A text taken apart into lines and words; # begins a comment. */
#ifndef TOOL_TEXT_H
#define TOOL_TEXT_H

#include "files.h"

struct text {
    const char *name;
    const char *at, *line_end, *end;
    unsigned line;
    bool wrong; /* a message was printed; nothing more is taken */
};

enum { TEXT_LIMIT = 1 << 20 }; /* some twenty times the longest job's text */

/* Whether a file is short enough for a text: 0, or 2 after a message. That of a log may
 * have any length. */
int check_text_length(const struct file *f);
struct text text_of(const struct file *f);
bool begins_with(const struct file *f, const char *word); /* as its first word */

/* Goes to the next line that holds a word; false at the end of the text. */
bool next_line(struct text *t);

/* Each says what was expected, with the line's number, where it is not there.
 * Only the first fault of a text is told. */
void take_word(struct text *t, const char *word);
uint32_t take_number(struct text *t, const char *what);
void take_index(struct text *t, const char *what, size_t index);
void take_line_end(struct text *t);

/* Whether the next word is this one, which is then taken. */
bool took_word(struct text *t, const char *word);
bool at_line_end(struct text *t);

void text_fault(struct text *t, const char *format, ...)
    __attribute__((format(printf, 2, 3)));

/* Base ten, digits only, at most 4,294,967,295. */
bool parse_number(const char *digits, size_t length, uint32_t *value);

#endif
