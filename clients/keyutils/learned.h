/*
 * Keys that are known to be of a type that programs may read. Neither a key's type nor what its serial stands for ever changes, as long as the daemon runs: so
 * this holds for one connection.
 */
#ifndef LEARNED_H
#define LEARNED_H

#include <stdbool.h>
#include <stdint.h>

enum { LEARNED = 64 };

/* A key has one place, which a later one may take. Empty is what has zeros. */
struct learned {
    int32_t keys[LEARNED];
};

/* The serials of one user's keys are four apart. */
static inline unsigned place_of_key(int32_t key)
{
    return ((uint32_t)key >> 2) % LEARNED;
}

static inline void learn(struct learned *learned, int32_t key)
{
    learned->keys[place_of_key(key)] = key;
}

static inline bool has_learned(const struct learned *learned, int32_t key)
{
    return key > 0 && learned->keys[place_of_key(key)] == key;
}

#endif
