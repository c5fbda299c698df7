/* Linked into the screen by tests/approval/run: it stops, is killed or fails at a call that it makes of the C library.

       FAULT=ACTION:CALL:N     at its Nth call of CALL, or of any of those below where CALL is "any"

   ACTION is kill (SIGKILL), interrupt (SIGINT, as Ctrl-C does), stop (until it is told to go on), or full (the call fails as on a
   full disk). A write that is struck has written half of its bytes. The linker's --wrap puts these functions in the calls'
   place. */
#define _DEFAULT_SOURCE
#include <errno.h>
#include <signal.h>
#include <stdbool.h>
#include <stddef.h>
#include <stdlib.h>
#include <string.h>
#include <sys/types.h>

static bool begins(const char *text, const char *with) {
    size_t length = strlen(with);
    return strlen(text) > length && memcmp(text, with, length) == 0 && text[length] == ':';
}

/* Is it this call? */
static bool is_struck(const char *call) {
    static int calls;
    const char *fault = getenv("FAULT"), *name = fault == NULL ? NULL : strchr(fault, ':');
    if (name == NULL || !(begins(name + 1, call) || begins(name + 1, "any")))
        return false;
    calls++;
    return calls == atoi(strchr(name + 1, ':') + 1);
}

/* Gives true where the call has to fail. */
static bool strike(void) {
    const char *fault = getenv("FAULT");
    if (begins(fault, "kill"))
        raise(SIGKILL);
    if (begins(fault, "interrupt")) {
        signal(SIGINT, SIG_DFL); /* a test that runs in the background has it ignored */
        raise(SIGINT);
    }
    if (begins(fault, "stop"))
        raise(SIGSTOP);
    errno = ENOSPC;
    return begins(fault, "full");
}

#define WRAP(name, parameters, values)                                   \
    int __real_##name parameters;                                        \
    int __wrap_##name parameters;                                        \
    int __wrap_##name parameters {                                       \
        return is_struck(#name) && strike() ? -1 : __real_##name values; \
    }

WRAP(open, (const char *name, int how, mode_t mode), (name, how, mode))
WRAP(close, (int file), (file))
WRAP(ftruncate, (int file, off_t length), (file, length))
WRAP(fchmod, (int file, mode_t mode), (file, mode))
WRAP(fsync, (int file), (file))
WRAP(rename, (const char *from, const char *to), (from, to))
WRAP(unlink, (const char *name), (name))
WRAP(flock, (int file, int how), (file, how))

ssize_t __real_write(int file, const void *bytes, size_t length);
ssize_t __wrap_write(int file, const void *bytes, size_t length);

ssize_t __wrap_write(int file, const void *bytes, size_t length) {
    if (!is_struck("write"))
        return __real_write(file, bytes, length);
    ssize_t half = __real_write(file, bytes, length / 2);
    return strike() ? -1 : half;
}
