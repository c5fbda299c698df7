#define _DEFAULT_SOURCE
#include "files.h"

#include "end.h"

#include <errno.h>
#include <fcntl.h>
#include <stdio.h>
#include <sys/file.h>
#include <unistd.h>

size_t read_whole(const char *path, uint8_t *bytes, size_t room) {
    int file = open(path, O_RDONLY | O_CLOEXEC);
    if (file < 0)
        fail_by_system(path, "cannot be read");
    size_t length = 0;
    ssize_t got = 1;
    while (length < room && got != 0) {
        got = read(file, bytes + length, room - length);
        if (got < 0)
            fail_by_system(path, "cannot be read");
        length += (size_t)got;
    }
    if (close(file) != 0)
        fail_by_system(path, "cannot be read");
    return length;
}

void lock(int file, const char *path) {
    if (flock(file, LOCK_EX | LOCK_NB) == 0)
        return;
    if (errno == EWOULDBLOCK)
        fprintf(stderr, "approval: another screen is at work here; waiting for it to end\n");
    while (flock(file, LOCK_EX) != 0)
        if (errno != EINTR)
            fail_by_system(path, "cannot be locked");
}
