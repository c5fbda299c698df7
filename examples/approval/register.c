#define _DEFAULT_SOURCE
#include "register.h"

#include "end.h"
#include "files.h"
#include "paths.h"
#include "replace.h"

#include <fcntl.h>
#include <stdlib.h>
#include <unistd.h>

uint8_t reg[CHIVETASSEL_SLOTS_MOST * CHIVETASSEL_SLOT + 1];
size_t reg_len;

static char path[PATH_ROOM];
static struct stat rights; /* mode and owner, which a change keeps */

/* A file that was cut short or grew would otherwise be taken for a smaller or larger register. */
static void look_at_length(size_t length) {
    if (length == 0 || length % CHIVETASSEL_SLOT != 0 || length / CHIVETASSEL_SLOT > CHIVETASSEL_SLOTS_MOST)
        fail(path, "is damaged, or no register: a register has 1 to 64 slots of 16896 bytes, and this file has another length");
}

/* Looked at ahead of all else, and again where it was locked. */
static void look_at_file(void) {
    if (stat(path, &rights) != 0)
        fail_by_system(path, "cannot be read");
    if (!S_ISREG(rights.st_mode))
        fail(path, "is no ordinary file");
    look_at_length((size_t)rights.st_size);
}

void find_register(const char *name) {
    char *found = realpath(name, NULL);
    if (found == NULL)
        fail_by_system(name, "cannot be found");
    join(path, found, "");
    free(found);
    must_not_be_ours(path);
    look_at_file();
}

static void must_be_free(void) {
    struct stat there;
    if (lstat(path, &there) == 0)
        fail(path, "is there already; a register is begun under a new name");
}

void find_place(const char *name) {
    place_of(path, name);
    must_not_be_ours(path);
    must_be_free();
    rights = usual_rights();
}

/* Whoever may change the register may lock it: the lock has its mode and group, if it is ours to give. */
static void share_lock(int file, const char *name) {
    struct stat now;
    if (fstat(file, &now) != 0)
        fail_by_system(name, "cannot be looked at");
    if (now.st_uid != geteuid())
        return;
    if (rights.st_gid != (gid_t)-1 && now.st_gid != rights.st_gid && fchown(file, (uid_t)-1, rights.st_gid) != 0)
        fail_by_system(name, "cannot be given the register's group");
    if (fchmod(file, rights.st_mode & 0666) != 0)
        fail_by_system(name, "cannot be given the register's mode");
}

/* The file of this name, locked. Should it have lost its name while this screen waited for it, then there is another to be locked. */
static int lock_named(const char *name, int how) {
    for (;;) {
        mode_t mask = umask(0);
        int file = open(name, O_RDWR | O_NOFOLLOW | O_CLOEXEC | how, rights.st_mode & 0666);
        umask(mask);
        if (file < 0)
            fail_by_system(name, "cannot be opened to change it");
        lock(file, name);
        if (is_named(file, name))
            return file;
        close(file);
    }
}

static void lock_register(void) {
    char name[PATH_ROOM];
    join(name, path, LOCK);
    share_lock(lock_named(name, O_CREAT), name);
}

/* The register itself is locked too, so that all goes well where somebody removes the lock. That also asks whether the file may be
   written: a change takes its name, and for that the folder's mode is enough. */
void begin_change(void) {
    lock_register();
    lock_named(path, 0);
    look_at_file();
    if (rights.st_nlink > 1)
        fail(path, "has another name too (a hard link), which a change would leave behind");
}

void begin_register(void) {
    lock_register();
    must_be_free();
}

void read_register(void) {
    reg_len = read_whole(path, reg, sizeof reg);
    look_at_length(reg_len);
}

/* What a screen that was killed has left, perhaps another user's, is out of the way first: with the lock held nobody writes it. */
void keep_register(void) {
    char left[PATH_ROOM];
    join(left, path, UNFINISHED);
    unlink(left);
    take_name(write_beside(path, &rights, reg, reg_len), path);
}

bool is_register(const struct stat *file) {
    return file->st_dev == rights.st_dev && file->st_ino == rights.st_ino;
}
