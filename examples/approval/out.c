#define _DEFAULT_SOURCE
#include "out.h"

#include "end.h"
#include "paths.h"
#include "register.h"
#include "replace.h"

#include <errno.h>
#include <stdlib.h>
#include <unistd.h>

static char path[PATH_ROOM];
static struct stat rights;

static void find_old(const char *name) {
    char *found = realpath(name, NULL);
    if (found == NULL)
        fail_by_system(name, "leads nowhere");
    join(path, found, "");
    free(found);
    if (stat(path, &rights) != 0)
        fail_by_system(name, "cannot be found");
    if (!S_ISREG(rights.st_mode))
        fail(name, "is no ordinary file, and no plan is written to it");
    if (is_register(&rights))
        fail(name, "is the register, and no plan is written to it");
    if (access(path, W_OK) != 0) /* the folder's mode would be enough to put another in its place */
        fail_by_system(name, "cannot be written");
}

void find_out(const char *name) {
    struct stat there;
    if (lstat(name, &there) == 0) {
        find_old(name);
    } else if (errno == ENOENT) {
        place_of(path, name);
        rights = usual_rights();
    } else {
        fail_by_system(name, "cannot be found");
    }
    must_not_be_ours(path);
}

void write_out(const uint8_t *plan, size_t plan_len) {
    take_name(write_beside(path, &rights, plan, plan_len), path);
}
