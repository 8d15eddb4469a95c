/* What the seeded calls of a library and the program that runs them share. */
#ifndef CALLS_H
#define CALLS_H

#include "inputs.h"

/* An entry, how to call it once, and the answers that its header gives it, each of which the calls have to meet. */
typedef struct {
    const char *name;
    uint32_t (*call)(source *); /* adds arguments' buffers and the answer to the digest; returns the answer's number */
    uint32_t answers;
} entry;

/* The library's, with an empty one at the end. */
extern const entry entries[];

#define BIT(number) ((uint32_t)1 << (number))

/* With a length of 0 a pointer may be null, and is. */
#define LIST(list, n) ((n) ? (list) : NULL), (n)

/* Into the digest. */
void add(uint64_t number);
void add_numbers(const uint16_t *numbers, size_t n);
void add_bytes(const uint8_t *bytes, size_t n);
/* Every field; the number is given back. */
uint32_t add_answer(ism_answer answer);

#endif
