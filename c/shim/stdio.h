/* What test.c needs of <stdio.h>. */
#ifndef SHIM_STDIO_H
#define SHIM_STDIO_H
int putchar(int c);
#endif
