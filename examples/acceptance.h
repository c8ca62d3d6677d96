/*
 * acceptance.h: the acceptance test of a door unit, for the line at the factory.
 *
 * Compile acceptance.c for the chip, link it with libpelchunda.a and with the
 * one function that the line provides, and call acceptance once. It wants no
 * file, no heap and no operating system; memcpy and memset are all that it and
 * the library need of the C library.
 */
#ifndef ACCEPTANCE_H
#define ACCEPTANCE_H

#ifdef __cplusplus
extern "C" {
#endif

/* Provided by the line: shows one line of text, which ends in a zero byte. */
void acceptance_show(const char *line);

/* Makes all recorded calls in turn and compares their answers. Shows one line,
 * "PASS N calls", or "FAIL call N, NAME: WHAT" for the first that differs.
 * Returns 0 where all are as recorded, else 1. Its stack is that of the deepest
 * call (PELCHUNDA_STACK_BYTES) and 1 KiB more. */
int acceptance(void);

#ifdef __cplusplus
}
#endif

#endif
