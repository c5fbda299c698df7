#ifndef LIBC_SYS_STAT_H
#define LIBC_SYS_STAT_H
#include <sys/types.h>
struct stat {
    unsigned long st_dev, st_ino, st_nlink;
    mode_t st_mode;
    uid_t st_uid;
    gid_t st_gid;
    int padding;
    unsigned long st_rdev;
    off_t st_size, st_blksize, st_blocks;
    long times_and_spare[9];
};
#define S_ISREG(mode) (((mode) & 0170000) == 0100000)
int stat(const char *, struct stat *);
int lstat(const char *, struct stat *);
int fstat(int, struct stat *);
int fchmod(int, mode_t);
mode_t umask(mode_t);
#endif
