/* The headers of this folder declare what the C programs of this repository use of the C library, for Linux on x86-64.
   They stand in where the machine has no C compiler and headers for x86-64 of its own: see tests/cc. */
#ifndef LIBC_STDDEF_H
#define LIBC_STDDEF_H
typedef __SIZE_TYPE__ size_t;
#ifdef __cplusplus
#define NULL __null
#else
#define NULL ((void *)0)
#endif
#endif
