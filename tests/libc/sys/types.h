#ifndef LIBC_SYS_TYPES_H
#define LIBC_SYS_TYPES_H
typedef long ssize_t;
typedef long off_t;
typedef unsigned mode_t;
typedef unsigned uid_t;
typedef unsigned gid_t;
#endif
