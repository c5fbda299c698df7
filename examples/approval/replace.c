#define _DEFAULT_SOURCE
#include "replace.h"

#include "end.h"
#include "files.h"
#include "paths.h"

#include <fcntl.h>
#include <signal.h>
#include <stdbool.h>
#include <stdio.h>
#include <stdlib.h>
#include <string.h>
#include <unistd.h>

/* The file that is being written, so that it can be removed where the screen ends before it has its name. */
static char unfinished[PATH_ROOM];
static int unfinished_file = -1;
static sigset_t held;

struct stat usual_rights(void) {
    struct stat rights;
    mode_t mask = umask(0);
    umask(mask);
    memset(&rights, 0, sizeof rights);
    rights.st_mode = 0666 & ~mask;
    rights.st_uid = (uid_t)-1; /* whatever the system gives */
    rights.st_gid = (gid_t)-1;
    return rights;
}

static void remove_unfinished(void) {
    if (unfinished_file >= 0 && is_named(unfinished_file, unfinished))
        unlink(unfinished);
}

static void hold_signals(void) {
    sigset_t ending;
    sigemptyset(&ending);
    sigaddset(&ending, SIGINT);
    sigaddset(&ending, SIGTERM);
    sigaddset(&ending, SIGHUP);
    sigaddset(&ending, SIGQUIT);
    if (sigprocmask(SIG_BLOCK, &ending, &held) != 0)
        fail_by_system("signals", "cannot be held back");
}

/* A file may be there already: another screen is writing it, or one that was killed has left it. The lock tells which, and
   the name whether it is still the one to be written when the lock is had. */
static void open_unfinished(const char *path) {
    join(unfinished, path, UNFINISHED);
    if (atexit(remove_unfinished) != 0)
        fail(unfinished, "cannot be looked after");
    for (;;) {
        int file = open(unfinished, O_WRONLY | O_CREAT | O_NOFOLLOW | O_CLOEXEC, 0600);
        if (file < 0)
            fail_by_system(unfinished, "cannot be written");
        lock(file, unfinished);
        if (is_named(file, unfinished)) {
            unfinished_file = file;
            return;
        }
        close(file);
    }
}

/* Only the superuser can give a file away. Anyone else who changes a file becomes its owner; then its group has to have every
   right that the owner has, so that nobody who could use it before is shut out. */
static void keep_rights(int file, const char *path, const struct stat *like) {
    struct stat now;
    if (fstat(file, &now) != 0)
        fail_by_system(path, "cannot be written");
    if (like->st_gid != (gid_t)-1 && now.st_gid != like->st_gid && fchown(file, (uid_t)-1, like->st_gid) != 0)
        fail_by_system(path, "its group cannot be kept");
    bool shared = (like->st_mode >> 6 & 7 & ~(like->st_mode >> 3 & 7)) == 0;
    if (like->st_uid != (uid_t)-1 && now.st_uid != like->st_uid && fchown(file, like->st_uid, (gid_t)-1) != 0 && !shared)
        fail_by_system(path, "its owner cannot be kept, and its mode would shut the owner out");
    if (fchmod(file, like->st_mode & 07777) != 0)
        fail_by_system(path, "its mode cannot be kept");
}

int write_beside(const char *path, const struct stat *like, const uint8_t *bytes, size_t length) {
    hold_signals();
    open_unfinished(path);
    if (ftruncate(unfinished_file, 0) != 0)
        fail_by_system(unfinished, "cannot be written");
    while (length > 0) {
        ssize_t wrote = write(unfinished_file, bytes, length);
        if (wrote < 0)
            fail_by_system(unfinished, "cannot be written");
        bytes += wrote;
        length -= (size_t)wrote;
    }
    keep_rights(unfinished_file, path, like);
    if (fsync(unfinished_file) != 0)
        fail_by_system(unfinished, "cannot be put to disk");
    return unfinished_file;
}

/* A name lasts only once its folder is on the disk too. */
static void keep_folder_of(const char *path) {
    char folder[PATH_ROOM];
    join(folder, path, "");
    strrchr(folder, '/')[1] = 0;
    int file = open(folder, O_RDONLY | O_CLOEXEC);
    if (file < 0 || fsync(file) != 0 || close(file) != 0)
        fail_by_system(folder, "cannot be put to disk");
}

void take_name(int file, const char *path) {
    if (!is_named(file, unfinished))
        fail(unfinished, "was taken away meanwhile; nothing was changed");
    if (rename(unfinished, path) != 0)
        fail_by_system(path, "cannot be written");
    unfinished_file = -1;
    now_changed();
    keep_folder_of(path);
    if (close(file) != 0)
        fail_by_system(path, "cannot be closed");
    if (sigprocmask(SIG_SETMASK, &held, NULL) != 0)
        fail_by_system("signals", "cannot be let through");
}
