/* How the screen ends. What it says of a failure goes to standard error. */
#ifndef END_H
#define END_H

enum status {
    DONE = 0,     /* it is done, and was told */
    REFUSED = 1,  /* the library refused it, by a number that was told */
    BAD_WORD = 2, /* a word of the command is no good, and nothing was done */
    BAD_FILE = 3, /* a file cannot be read, written or locked, or is damaged, and nothing was changed */
    UNTOLD = 4,   /* the register or OUT was changed, but something behind that failed, as telling it */
};

/* The screen has changed a file: from here on a failure ends with UNTOLD. */
void now_changed(void);

/* NAME: WHY */
_Noreturn void fail(const char *name, const char *why);

/* The same, and behind it why the system says that it failed (errno). */
_Noreturn void fail_by_system(const char *name, const char *why);

/* A word of the command, and what was wanted in its place. */
_Noreturn void fail_by_word(const char *word, const char *wanted);

#endif
