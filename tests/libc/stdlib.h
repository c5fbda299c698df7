#ifndef LIBC_STDLIB_H
#define LIBC_STDLIB_H
void exit(int) __attribute__((noreturn));
int atexit(void (*)(void));
void free(void *);
char *getenv(const char *);
char *realpath(const char *, char *);
int atoi(const char *);
unsigned long long strtoull(const char *, char **, int);
#endif
