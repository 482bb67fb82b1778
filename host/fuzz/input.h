/* A fuzzer's bytes as numbers, and lists that lie against a page that cannot be touched. */
#ifndef INPUT_H
#define INPUT_H

#include <stddef.h>
#include <stdint.h>

struct input { const uint8_t *next, *end; };

/* The next byte, and zeros after the last. */
uint8_t byte(struct input *input);

/* A count below `limit`, or, for the highest bytes, one at an edge of what fits a size_t. */
size_t count(struct input *input, size_t limit);

/* A length that is `least`, a little more, or less. */
size_t length(struct input *input, size_t least);

/* A float: often small and whole or a quarter, at an edge of what is allowed, or any at all. */
double number(struct input *input);

/* A tolerance: mostly one that is taken, 10^-9 for the byte 0, or at an edge, or any at all. */
double tolerance(struct input *input);

/* A list and a copy of what stood in it. */
struct list { void *at, *copy; size_t bytes; };

/* A list of so many bytes, each other than zero, that ends, or begins if `front`, at such a page.
   There are fourteen places for lists. */
struct list lend(int place, size_t bytes, int front);

/* After the list was filled: what stands in it is what it is held to by `untouched`. */
void keep(struct list *list);

/* Whether the list is as it was lent. */
int untouched(const struct list *list);

/* Whether every byte of the list from this one on is zero. */
int zero_from(const struct list *list, size_t byte);

#endif
