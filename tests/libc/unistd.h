#ifndef LIBC_UNISTD_H
#define LIBC_UNISTD_H
#include <stddef.h>
#include <sys/types.h>
#define W_OK 2
ssize_t read(int, void *, size_t);
ssize_t write(int, const void *, size_t);
int access(const char *, int);
int fchown(int, uid_t, gid_t);
int fsync(int);
int ftruncate(int, off_t);
int close(int);
int unlink(const char *);
uid_t geteuid(void);
unsigned sleep(unsigned);
#endif
