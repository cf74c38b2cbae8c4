/*
 * Which instructions of the archive were run. The archive is machine code without instrumentation, so
 * a trap is put on each of its instructions; the first time that one is run, the trap is taken away
 * and the instruction counted. Linux on x86-64 only.
 */
#ifndef COVER_H
#define COVER_H

#include <stdbool.h>
#include <stddef.h>

/* Puts the traps; the file is what hostile/places writes. */
void cover_start(const char *places);

/* One line: how many were run, of how many; with `missed`, the addresses of the others below it. */
void cover_print(bool missed);

/* Is told the number of each instruction when it is run for the first time. */
extern void (*on_instruction)(size_t number);

#endif
