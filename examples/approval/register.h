/* The register's file. One change goes on at a time: who changes it holds REGISTER.lock, a file that stays. */
#ifndef REGISTER_H
#define REGISTER_H

#include "chivetassel.h"

#include <stdbool.h>
#include <sys/stat.h>

/* The register's bytes, once they are read. */
extern uint8_t reg[CHIVETASSEL_SLOTS_MOST * CHIVETASSEL_SLOT + 1];
extern size_t reg_len;

/* Looks for the register that a name, or a link of that name, leads to, and whether it has the length of one. */
void find_register(const char *name);

/* Where a new register will be. There must be nothing of that name. */
void find_place(const char *name);

/* Both wait for a screen that is changing the register, and keep others from it until this one ends. */
void begin_change(void);
void begin_register(void);

void read_register(void);

/* Puts the bytes in the file's place. */
void keep_register(void);

/* Is this file the register? */
bool is_register(const struct stat *file);

#endif
