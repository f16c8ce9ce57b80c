#define _POSIX_C_SOURCE 200809L
#include "archive.h"

#include <errno.h>
#include <string.h>
#include <unistd.h>

#ifdef ARCHIVE_SHA256
_Static_assert(sizeof ARCHIVE_SHA256 == SHA256_DIGITS + 1, "ARCHIVE_SHA256 has 64 digits");
static const char recorded[] = ARCHIVE_SHA256;
#else
static const char recorded[] = "not recorded";
#endif
static const bool is_recorded = sizeof recorded == SHA256_DIGITS + 1;

static const char place[] = "/../lib/libcetomuhi.a";

/* The installed archive, or NULL and the reason in errno. */
static FILE *open_installed(void)
{
    char path[4096 + sizeof place];
    const ssize_t length = readlink("/proc/self/exe", path, 4096);
    if (length <= 0 || length >= 4096) {
        errno = ENOENT;
        return NULL;
    }
    path[length] = 0;
    char *last = strrchr(path, '/');
    if (last == NULL)
        return NULL;
    memcpy(last, place, sizeof place);
    return fopen(path, "rb");
}

archive look_at_archive(void)
{
    archive it = {recorded, NOT_THERE, ""};
    FILE *file = open_installed();
    if (file == NULL) {
        it.installed = errno == ENOENT || errno == ENOTDIR ? NOT_THERE : NOT_READ;
        return it;
    }
    if (!sha256_of_file(file, it.sum))
        it.installed = NOT_READ;
    else if (!is_recorded)
        it.installed = NOT_COMPARED;
    else
        it.installed = strcmp(it.sum, recorded) == 0 ? SAME : DIFFERS;
    fclose(file);
    return it;
}

const char *archive_words(const archive *it)
{
    switch (it->installed) {
    case SAME:
        return "lib/libcetomuhi.a is the archive that this program was linked with";
    case DIFFERS:
        return "lib/libcetomuhi.a is not the archive that this program was linked with";
    case NOT_READ:
        return "lib/libcetomuhi.a is there and cannot be read";
    case NOT_COMPARED:
        return "lib/libcetomuhi.a is there; the sum of the linked archive was not recorded";
    default:
        return "lib/libcetomuhi.a is not there beside this program";
    }
}
