#ifndef LIBC_SYS_FILE_H
#define LIBC_SYS_FILE_H
#define LOCK_EX 2
#define LOCK_NB 4
int flock(int, int);
#endif
