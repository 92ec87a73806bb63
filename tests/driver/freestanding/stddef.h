/* size_t from the compiler's own name. */
#ifndef FREESTANDING_STDDEF_H
#define FREESTANDING_STDDEF_H
typedef __SIZE_TYPE__ size_t;
#define NULL ((void *)0)
#endif
