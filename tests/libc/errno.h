#ifndef LIBC_ERRNO_H
#define LIBC_ERRNO_H
int *__errno_location(void);
#define errno (*__errno_location())
#define ENOENT 2
#define EINTR 4
#define EIO 5
#define EWOULDBLOCK 11
#define ENOSPC 28
#endif
