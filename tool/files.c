/* Files read whole and written whole or not at all; "-" is a standard stream. */
#include "files.h"

#include <errno.h>
#include <fcntl.h>
#include <stdarg.h>
#include <stdio.h>
#include <stdlib.h>
#include <string.h>
#include <sys/stat.h>
#include <unistd.h>

int failed(const char *format, ...)
{
    va_list words;

    fputs("seqopchi: ", stderr);
    va_start(words, format);
    vfprintf(stderr, format, words);
    va_end(words);
    fputc('\n', stderr);
    return 2;
}

bool is_dash(const char *path)
{
    return strcmp(path, "-") == 0;
}

int file_read(struct file *f, const char *path, size_t most)
{
    return file_read_on(f, path, most, NULL, NULL);
}

int file_read_on(struct file *f, const char *path, size_t first, reads_on *on,
                 const struct file *beside)
{
    FILE *in = is_dash(path) ? stdin : fopen(path, "rb");
    size_t room = 0;
    int error;

    f->name = is_dash(path) ? "standard input" : path;
    f->lines = NULL;
    f->length = 0;
    f->data = NULL;
    if (!in)
        return failed("cannot read '%s': %s", f->name, strerror(errno));
    errno = 0;
    do {
        room = room ? 2 * room : first;
        f->data = reallocated(f->data, room);
        f->length += fread(f->data + f->length, 1, room - f->length, in);
    } while (f->length == room && on && on(f, beside));
    error = ferror(in) ? errno : 0;
    if (in != stdin)
        fclose(in);
    if (error)
        return failed("cannot read '%s': %s", f->name, strerror(error));
    /* No spare bytes behind the end, so that a sanitizer sees a read too far. */
    f->data = reallocated(f->data, f->length);
    return 0;
}

void file_free(struct file *f)
{
    free(f->data);
    f->data = NULL;
}

static int write_all(int out, const char *data, size_t length)
{
    while (length > 0) {
        ssize_t step = write(out, data, length);

        if (step < 0 && errno == EINTR)
            continue;
        if (step <= 0)
            return 0;
        data += step;
        length -= (size_t)step;
    }
    return 1;
}

/* The mode that the finished file gets: its old one, or a new file's. */
static mode_t final_mode(const char *path)
{
    struct stat old;
    mode_t mask = umask(0);

    umask(mask);
    return stat(path, &old) == 0 ? old.st_mode & 07777 : 0666 & ~mask;
}

/* A file that lies whole beside its target, to be moved there: readers of the target
 * see its old content or the whole new one. */
struct pending {
    char *target, *temporary;
    bool there; /* whether there is a temporary file */
};

static int write_temporary(int out, const struct output *o, const char *target)
{
    int fine = write_all(out, o->data, o->length)
        && fchmod(out, final_mode(target)) == 0 && fsync(out) == 0;
    int error = errno;

    if (close(out) != 0 && fine) {
        fine = 0;
        error = errno;
    }
    errno = error;
    return fine;
}

/* The file behind a symbolic link is replaced, not the link. */
static int write_beside(struct pending *p, const struct output *o)
{
    char *real = realpath(o->path, NULL);
    size_t size = strlen(real ? real : o->path) + 1;
    int out;

    p->target = allocated(size);
    snprintf(p->target, size, "%s", real ? real : o->path);
    free(real);
    size += sizeof ".XXXXXX" - 1;
    p->temporary = allocated(size);
    snprintf(p->temporary, size, "%s.XXXXXX", p->target);
    out = mkstemp(p->temporary);
    p->there = out >= 0;
    return p->there && write_temporary(out, o, p->target);
}

/* A device or a pipe is written to as it is: it must not be replaced. */
static int write_through(const struct output *o)
{
    int out = open(o->path, O_WRONLY);
    int fine = out >= 0 && write_all(out, o->data, o->length);
    int error = errno;

    if (out >= 0)
        close(out);
    errno = error;
    return fine;
}

static int prepare(struct pending *p, const struct output *o)
{
    struct stat old;

    if (is_dash(o->path))
        return write_all(STDOUT_FILENO, o->data, o->length);
    if (stat(o->path, &old) == 0 && !S_ISREG(old.st_mode))
        return write_through(o);
    return write_beside(p, o);
}

static int move(struct pending *p)
{
    if (p->there && rename(p->temporary, p->target) != 0)
        return 0;
    p->there = false;
    return 1;
}

static void drop(struct pending *p)
{
    if (p->there)
        unlink(p->temporary);
    free(p->temporary);
    free(p->target);
}

static int write_outputs(const struct output *outputs, int count)
{
    struct pending pending[2] = { { NULL, NULL, false }, { NULL, NULL, false } };
    int fine = 1, at = 0, error;

    for (int i = 0; i < 2 * count && fine; i++) {
        at = i % count;
        fine = i < count ? prepare(&pending[at], &outputs[at]) : move(&pending[at]);
    }
    error = errno;
    for (int i = 0; i < count; i++)
        drop(&pending[i]);
    if (fine)
        return 0;
    return failed("cannot write '%s': %s", is_dash(outputs[at].path)
                  ? "standard output" : outputs[at].path, strerror(error));
}

int files_write(const struct output outputs[2])
{
    return write_outputs(outputs, 2);
}

int file_write(const char *path, const void *data, size_t length)
{
    struct output one = { path, data, length };

    return write_outputs(&one, 1);
}

bool same_file(const char *left, const char *right)
{
    struct stat l, r;

    if (strcmp(left, right) == 0)
        return true;
    return stat(left, &l) == 0 && stat(right, &r) == 0 && l.st_dev == r.st_dev
        && l.st_ino == r.st_ino;
}
