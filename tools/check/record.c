#define _POSIX_C_SOURCE 200809L
#define _XOPEN_SOURCE 700
#include "record.h"

#include <errno.h>
#include <fcntl.h>
#include <inttypes.h>
#include <stdlib.h>
#include <sys/stat.h>
#include <time.h>
#include <unistd.h>

#include "interrupt.h"
#include "options.h"
#include "report.h"

enum { COLUMN = 11 };

static bool cannot(const record *it, const char *path, const char *why)
{
    complain("%s: no record can be made there: %s", path, why);
    free(it->path);
    free(it->unfinished);
    return false;
}

/* A file of its own beside the record's, open to whom the user lets new files be open. */
static int open_beside(record *it)
{
    const size_t length = strlen(it->path);
    it->unfinished = malloc(length + sizeof ".XXXXXX");
    if (it->unfinished == NULL)
        return -1;
    memcpy(it->unfinished, it->path, length);
    memcpy(it->unfinished + length, ".XXXXXX", sizeof ".XXXXXX");
    const int descriptor = mkstemp(it->unfinished);
    const mode_t mask = umask(0);
    umask(mask);
    if (descriptor >= 0) {
        name_unfinished(it->unfinished);
        fchmod(descriptor, 0666 & ~mask);
    }
    return descriptor;
}

bool begin_record(record *it, const char *path)
{
    struct stat found;
    *it = (record){NULL, NULL, NULL};
    if (path == NULL)
        return true;
    const bool there = stat(path, &found) == 0;
    if (there && S_ISDIR(found.st_mode))
        return cannot(it, path, "it is a folder");
    if (there && !S_ISREG(found.st_mode) && !S_ISCHR(found.st_mode))
        return cannot(it, path, "it is neither a file nor a device");
    it->path = there ? realpath(path, NULL) : strdup(path);
    if (it->path == NULL)
        return cannot(it, path, strerror(errno));
    const bool device = there && S_ISCHR(found.st_mode);
    const int descriptor = device ? open(it->path, O_WRONLY | O_NOCTTY) : open_beside(it);
    if (descriptor >= 0)
        it->out = fdopen(descriptor, "w");
    return it->out != NULL || cannot(it, path, strerror(errno));
}

void record_head(record *it, const settings *how, const archive *found, const char *version)
{
    char words[200];
    const time_t now = time(NULL);
    struct tm utc;
    if (it->out == NULL)
        return;
    fprintf(it->out, "A check of the installed library by cetomuhi-check\n\n");
    strftime(words, sizeof words, "%Y-%m-%dT%H:%M:%SZ", gmtime_r(&now, &utc));
    fold(it->out, "date", COLUMN, words);
    snprintf(words, sizeof words, "built for version %d", CETOMUHI_VERSION);
    fold(it->out, "program", COLUMN, words);
    fold(it->out, "library", COLUMN, version);
    fold(it->out, "sha256", COLUMN, found->linked);
    fold(it->out, "installed", COLUMN, archive_words(found));
    if (found->sum[0] != 0)
        fold(it->out, "its sha256", COLUMN, found->sum);
    snprintf(words, sizeof words, "%" PRIu64, how->seed);
    fold(it->out, "seed", COLUMN, words);
    snprintf(words, sizeof words, "%" PRIu64 " random ones of each check", how->orders);
    fold(it->out, "orders", COLUMN, words);
    snprintf(words, sizeof words, "%" PRIu64 " s for each check", how->seconds);
    fold(it->out, "limit", COLUMN, words);
    fputc('\n', it->out);
}

bool end_record(record *it)
{
    if (it->out == NULL)
        return true;
    bool whole = fflush(it->out) == 0 && ferror(it->out) == 0;
    if (whole && it->unfinished != NULL)
        whole = fsync(fileno(it->out)) == 0;
    whole = fclose(it->out) == 0 && whole;
    if (whole && it->unfinished != NULL)
        whole = rename(it->unfinished, it->path) == 0;
    if (!whole && it->unfinished != NULL)
        unlink(it->unfinished);
    name_unfinished(NULL);
    free(it->unfinished);
    free(it->path);
    return whole;
}
