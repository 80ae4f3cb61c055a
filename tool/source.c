/* A file that is given as a text or packed (TEXT.md). */
#include "source.h"

#include <string.h>

/* No text holds a zero byte. Each packed form that reads well does, since its numbers
 * stay below 2 to the 24th. */
bool is_packed(const struct file *f)
{
    return f->length > 0 && memchr(f->data, 0, f->length);
}

int source_read(struct source *s, const char *path)
{
    int status;

    memset(s, 0, sizeof *s);
    status = file_read(&s->given, path, TEXT_LIMIT + 1);
    if (status)
        return status;
    s->file = s->given;
    s->is_text = !is_packed(&s->given);
    return s->is_text ? check_text_length(&s->given) : 0;
}

struct text source_text(const struct source *s, const char *word)
{
    struct text t = text_of(&s->given);

    if (next_line(&t))
        take_word(&t, word);
    else
        text_fault(&t, "expected '%s', but the text ends", word);
    return t;
}

int source_packed(struct source *s, const struct text *t)
{
    s->file = section_file(&s->packed, s->given.name);
    return t->wrong ? 2 : 0;
}

void source_free(struct source *s)
{
    section_free(&s->packed);
    file_free(&s->given);
}
