/* Seeded plans, about half of them damaged. */
#ifndef RANDOM_PLANS_H
#define RANDOM_PLANS_H

#include <stddef.h>
#include <stdint.h>

enum { RANDOM_ROOM = 2048 };

/* A number below the limit, the next one of a seeded sequence. */
uint32_t draw(uint64_t *seed, uint32_t limit);

/* Writes a plan, and returns its length. */
size_t random_plan(uint64_t *seed, uint8_t bytes[RANDOM_ROOM]);

#endif
