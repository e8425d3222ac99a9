#define _XOPEN_SOURCE 700

#include "rig.h"

#include <errno.h>
#include <stdarg.h>
#include <stdlib.h>
#include <string.h>
#include <sys/stat.h>
#include <unistd.h>

void (*before_stop)(int status, const char *why);

void stop(int status, const char *format, ...)
{
    static char why[4 * 4 * 4096]; /* It has room for three names and the words around them. */
    va_list values;
    va_start(values, format);
    vsnprintf(why, sizeof why, format, values);
    va_end(values);
    if (before_stop != NULL)
        before_stop(status, why);
    fflush(stdout); /* What was said before comes first where both streams go to one place. */
    fprintf(stderr, "rig: %s\n", why);
    exit(status);
}

size_t printable(const uint8_t *bytes, size_t length)
{
    if (length == 0)
        return 0;
    if (bytes[0] < 0x80)
        return bytes[0] >= 0x20 && bytes[0] != 0x7F;
    size_t needed = bytes[0] >= 0xF0 && bytes[0] <= 0xF4 ? 4 : bytes[0] >= 0xE0 && bytes[0] < 0xF0 ? 3
                  : bytes[0] >= 0xC2 && bytes[0] < 0xE0 ? 2 : 0;
    if (needed > length)
        return 0;
    for (size_t i = 1; i < needed; i++)
        if (bytes[i] < 0x80 || bytes[i] > 0xBF)
            return 0;
    if (needed >= 3 && ((bytes[0] == 0xE0 && bytes[1] < 0xA0) || (bytes[0] == 0xED && bytes[1] > 0x9F) ||
                        (bytes[0] == 0xF0 && bytes[1] < 0x90) || (bytes[0] == 0xF4 && bytes[1] > 0x8F)))
        return 0; /* These are no characters of UTF-8: too long, a surrogate, or above the last character. */
    return needed == 2 && bytes[0] == 0xC2 && bytes[1] < 0xA0 ? 0 : needed; /* C2 80 to C2 9F are control characters. */
}

const char *shown(const char *name)
{
    static char names[3][4 * 4096]; /* One message shows at most three names. */
    static size_t next;
    char *out = names[next++ % 3];
    size_t length = 0;
    for (const uint8_t *in = (const uint8_t *)name; *in != '\0' && length + 5 < sizeof names[0];) {
        size_t size = printable(in, 4); /* The zero byte at the end is part of no character. */
        if (size == 0)
            length += (size_t)sprintf(out + length, "\\x%02X", *in++);
        for (; size > 0; size--)
            out[length++] = (char)*in++;
    }
    out[length] = '\0';
    return out;
}

void *resize(void *block, size_t size)
{
    void *resized = realloc(block, size > 0 ? size : 1);
    if (resized == NULL)
        stop(RIG_NO_MEMORY, "there is no memory for %s bytes", grouped(size));
    return resized;
}

void *allocate(size_t size)
{
    return resize(NULL, size);
}

bool is_standard(const char *path)
{
    return strcmp(path, "-") == 0;
}

/* These files were opened to be read. */
enum { MOST_READ = 4 };
static struct stat files_read[MOST_READ];
static size_t count_read;

struct source open_source(const char *path)
{
    struct source source = {path, is_standard(path) ? stdin : fopen(path, "rb"), {NULL, 0}, 0, false};
    if (source.file == NULL || (count_read < MOST_READ && fstat(fileno(source.file), &files_read[count_read]) != 0))
        stop(RIG_UNREADABLE, "can't read %s: %s", shown(path), strerror(errno));
    count_read += count_read < MOST_READ;
    return source;
}

/* The size is not asked for first, since pipes have none and a file may grow. */
void read_on(struct source *source, size_t length)
{
    struct bytes *content = &source->content;
    while (content->length < length && !source->ended) {
        if (content->length == source->room) {
            if (source->room > SIZE_MAX / 2)
                stop(RIG_NO_MEMORY, "%s is too long to be held in memory", shown(source->path));
            source->room = source->room > 0 ? 2 * source->room : 4096;
            content->at = resize(content->at, source->room);
        }
        size_t most = source->room < length ? source->room : length;
        content->length += fread(content->at + content->length, 1, most - content->length, source->file);
        if (ferror(source->file)) {
            free(content->at);
            stop(RIG_UNREADABLE, "can't read %s: %s", shown(source->path), strerror(errno));
        }
        source->ended = feof(source->file) != 0;
    }
    /* The block is exactly as long as the content, so that a memory checker sees any step past its end. */
    content->at = resize(content->at, content->length);
    source->room = content->length;
}

void close_source(struct source *source)
{
    if (source->file != stdin)
        fclose(source->file);
}

struct bytes read_file(const char *path, size_t most)
{
    struct source source = open_source(path);
    read_on(&source, most);
    close_source(&source);
    return source.content;
}

void expect_not_read(const char *path)
{
    struct stat file;
    if ((is_standard(path) ? fstat(STDOUT_FILENO, &file) : stat(path, &file)) != 0 || !S_ISREG(file.st_mode))
        return; /* There is no such file yet, or it is a device or a pipe. */
    for (size_t i = 0; i < count_read; i++)
        if (files_read[i].st_dev == file.st_dev && files_read[i].st_ino == file.st_ino)
            stop(RIG_USAGE, "%s is a file that is read here: it is not written over", shown(path));
}

/* Writes all of the content to an open file and closes it. Returns whether all of it was written. */
static bool written(FILE *file, struct bytes content)
{
    bool all = fwrite(content.at, 1, content.length, file) == content.length;
    bool kept = (file == stdout ? fflush(file) : fclose(file)) == 0;
    return all && kept;
}

/* Opens a file beside another, with its permissions, to be renamed to it once all is written. *beside gets its name. */
static FILE *open_beside(const char *path, char **beside)
{
    struct stat there;
    mode_t masked = umask(0);
    umask(masked);
    mode_t mode = stat(path, &there) == 0 ? there.st_mode & 07777 : 0666 & ~masked;
    *beside = allocate(strlen(path) + sizeof ".XXXXXX");
    sprintf(*beside, "%s.XXXXXX", path);
    int made = mkstemp(*beside);
    if (made < 0)
        return NULL;
    fchmod(made, mode);
    return fdopen(made, "wb");
}

void write_file(const char *path, struct bytes content)
{
    struct stat there;
    bool in_place = is_standard(path) || (stat(path, &there) == 0 && !S_ISREG(there.st_mode));
    char *target = in_place ? NULL : realpath(path, NULL); /* A link's target, or null where there is no file yet. */
    char *beside = NULL;
    FILE *file = is_standard(path) ? stdout
               : in_place ? fopen(path, "wb") : open_beside(target != NULL ? target : path, &beside);
    if (file == NULL)
        stop(RIG_NOT_WRITTEN, "can't write %s: %s", shown(path), strerror(errno));
    if (!written(file, content) || (!in_place && rename(beside, target != NULL ? target : path) != 0)) {
        int why = errno;
        if (!in_place)
            unlink(beside);
        stop(RIG_NOT_WRITTEN, "can't write all of %s: %s", shown(path), strerror(why));
    }
    free(beside);
    free(target);
}
