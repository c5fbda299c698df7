/* Files, replaced whole. Whatever fails ends the screen, and the file is as it was, with nothing beside it. */
#ifndef REPLACE_H
#define REPLACE_H

#include <stddef.h>
#include <stdint.h>
#include <sys/stat.h>

/* Mode and owner that a new file gets, as the user's mask has it. */
struct stat usual_rights(void);

/* Writes bytes to PATH.unfinished and puts them to disk, with the mode and owner of `like`. From here to the end of take_name no
   Ctrl-C, hang-up or polite kill ends the screen. Killed otherwise, it leaves PATH.unfinished, which nobody need look at: the
   next change takes it over. */
int write_beside(const char *path, const struct stat *like, const uint8_t *bytes, size_t length);

/* Gives PATH.unfinished the name PATH, in one step: nobody ever sees half of a file. */
void take_name(int file, const char *path);

#endif
