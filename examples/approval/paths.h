/* Names of files. */
#ifndef PATHS_H
#define PATHS_H

#include <stdbool.h>

/* Room for a path with one of the screen's own endings. */
enum { PATH_ROOM = 4096 + 16 };

/* Beside a file: what is written before it takes the file's name, and what is locked while a register is changed. */
#define UNFINISHED ".unfinished"
#define LOCK ".lock"

/* A path with an ending, in a buffer of PATH_ROOM bytes. */
void join(char *made, const char *path, const char *ending);

/* Where a file of this name is or will be: its folder, links followed, and its own name, in a buffer of PATH_ROOM bytes. */
void place_of(char *made, const char *name);

/* A name must not end as the screen's own files do, which it writes over and removes. */
void must_not_be_ours(const char *path);

/* Is this open file the one that has this name now? */
bool is_named(int file, const char *path);

#endif
