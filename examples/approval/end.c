#define _DEFAULT_SOURCE
#include "end.h"

#include <errno.h>
#include <stdbool.h>
#include <stdio.h>
#include <stdlib.h>
#include <string.h>

static bool changed;

void now_changed(void) {
    changed = true;
}

static _Noreturn void leave(void) {
    if (changed)
        fprintf(stderr, "approval: what was asked for has been done all the same\n");
    exit(changed ? UNTOLD : BAD_FILE);
}

void fail(const char *name, const char *why) {
    fprintf(stderr, "approval: %s: %s\n", name, why);
    leave();
}

void fail_by_system(const char *name, const char *why) {
    fprintf(stderr, "approval: %s: %s: %s\n", name, why, strerror(errno));
    leave();
}

void fail_by_word(const char *word, const char *wanted) {
    fprintf(stderr, "approval: \"%s\" is %s\n", word, wanted);
    exit(BAD_WORD);
}
