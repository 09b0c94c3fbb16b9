/* What include/seambeacon.h takes from <stddef.h>, for a compiler without a C library's headers. */
#ifndef PLAIN_STDDEF_H
#define PLAIN_STDDEF_H
typedef __SIZE_TYPE__ size_t;
#define NULL ((void *)0)
#endif
