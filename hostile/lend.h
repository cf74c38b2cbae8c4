/*
 * Memory that is lent to a call: each list in a block of its own, with nothing readable behind it or
 * nothing before it, and guard bytes on the other side.
 *
 * With pages (the usual way) a block stands against a page that nobody may touch, so a read outside
 * ends the program even in code that no tool has looked at. With the heap each block is its own
 * malloc of just its size, for valgrind, which sees both sides.
 */
#ifndef LEND_H
#define LEND_H

#include <stdbool.h>
#include <stddef.h>
#include <stdint.h>

/* More elements than 32 bits count: lengths from here on are lent as pages that are only read. */
#define VAST ((size_t)1 << 32)

/* The most bytes that one list may have, vast ones aside. */
#define LIST_BYTES_MOST ((size_t)1 << 21)

enum use { READ, WRITE };

/* To be called once, before anything is lent. */
void lend_prepare(bool on_heap);

/* Whether lists of VAST elements and more can be lent. */
bool lend_vast(void);

/* Forgets what was lent. */
void lend_start(void);

/* Lends a list; `high` puts its end, not its start, against the page that nobody may touch. */
void *lend(const char *name, size_t count, size_t size, enum use use, bool high);

/* Notes what the lent lists hold; the call comes next. */
void lend_note(void);

/* Promises: what is lent for reading is as noted, and the guard bytes stand. */
void lend_check(void);

/* Promises about a list that was lent for writing, from byte `from` on. */
void stays(const void *list, size_t from);
void is_cleared(const void *list);

/* What a list held when the call was made. */
const void *noted(const void *list);

/* The name of the list that an address lies in or beside, or NULL. */
const char *lent_near(const void *address);

/* Keeps a copy of a list that is lent again and again, as pages that are only read. */
void *keep(const void *list, size_t bytes);

#endif
