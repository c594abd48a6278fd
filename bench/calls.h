/* The calls under measure, of each library that has them, with the bytes that they work on. */
#ifndef CALLS_H
#define CALLS_H

#include "peers.h"

#define PEERS 6
#define MOST 1048576

/* The unit comes first. */
extern const struct peer *const peers[PEERS];

/* Sealing and opening are in a mode, of n bytes, by a table of so many rows. Only the unit tests a table, and loads a page of n bytes. */
enum { SEAL, OPEN, UNWRAP, CHECK, LOAD };

struct call {
    int way, mode;
    size_t n, rows;
};

/* To be called first. */
void ready(void);

/* Whether the i-th library has such a call; and one call of it, which ends the program where it is refused. */
int has(const struct call *c, size_t i);
void call(const struct call *c, size_t i);

/* Makes what the first few libraries need for the call: for opening, a record of each. */
void prepare(const struct call *c, size_t few);

/* Makes the call with each library, and ends the program where one gives other bytes than it should. */
void compare(const struct call *c);

#endif
