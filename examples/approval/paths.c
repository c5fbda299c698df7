#define _DEFAULT_SOURCE
#include "paths.h"

#include "end.h"

#include <stdio.h>
#include <stdlib.h>
#include <string.h>
#include <sys/stat.h>

void join(char *made, const char *path, const char *ending) {
    if (snprintf(made, PATH_ROOM, "%s%s", path, ending) >= PATH_ROOM)
        fail(path, "the name is too long");
}

void place_of(char *made, const char *name) {
    char folder[PATH_ROOM], behind[PATH_ROOM];
    const char *slash = strrchr(name, '/'), *own = slash == NULL ? name : slash + 1;
    if (own[0] == 0 || strcmp(own, ".") == 0 || strcmp(own, "..") == 0)
        fail(name, "is the name of a folder");
    join(folder, slash == NULL ? "." : name, "");
    if (slash != NULL)
        folder[slash - name + 1] = 0;
    char *found = realpath(folder, NULL);
    if (found == NULL)
        fail_by_system(folder, "cannot be found");
    join(behind, strcmp(found, "/") == 0 ? "" : found, "/");
    join(made, behind, own);
    free(found);
}

static bool ends_in(const char *path, const char *ending) {
    size_t length = strlen(path), wanted = strlen(ending);
    return length >= wanted && strcmp(path + length - wanted, ending) == 0;
}

void must_not_be_ours(const char *path) {
    if (ends_in(path, UNFINISHED) || ends_in(path, LOCK))
        fail(path, "a name that ends so is for the screen's own files");
}

bool is_named(int file, const char *path) {
    struct stat open_one, named_one;
    return fstat(file, &open_one) == 0 && lstat(path, &named_one) == 0 && open_one.st_dev == named_one.st_dev &&
           open_one.st_ino == named_one.st_ino;
}
