/* The file that a released plan goes to. */
#ifndef OUT_H
#define OUT_H

#include <stddef.h>
#include <stdint.h>

/* OUT is a new file or an ordinary one: not the register or a device, by whatever name or link. */
void find_out(const char *name);

/* Puts the plan in its place. */
void write_out(const uint8_t *plan, size_t plan_len);

#endif
