/* Files, read whole and locked. Whatever fails ends the screen. */
#ifndef FILES_H
#define FILES_H

#include <stddef.h>
#include <stdint.h>

/* Reads up to `room` bytes and gives their number; a caller with room for one more than it wants sees what is too long. */
size_t read_whole(const char *path, uint8_t *bytes, size_t room);

/* Waits until this process alone has the file locked, and says so. The lock ends with the process, however that ends. */
void lock(int file, const char *path);

#endif
