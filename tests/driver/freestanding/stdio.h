/* What the examples print with: the kit has a C library, and no headers. */
#ifndef FREESTANDING_STDIO_H
#define FREESTANDING_STDIO_H
extern int printf(const char *form, ...);
#endif
