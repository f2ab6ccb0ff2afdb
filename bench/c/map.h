/* Hash maps from numbers of 32 bits to pointers: open addressing, linear probes, removal by shifting back.
 *
 * The hash is seeded, so that who chooses uids or client numbers can't choose collisions. */
#ifndef MAP_H
#define MAP_H

#include "memory.h"

/* The product of two numbers, its halves folded into one. */
static inline uint64_t folded(uint64_t a, uint64_t b)
{
    unsigned __int128 product = (unsigned __int128)a * b;
    return (uint64_t)product ^ (uint64_t)(product >> 64);
}

/* The same for every map of a program. */
struct seed {
    uint64_t a, b;
};

extern struct seed map_seed;

/* Draws the seed, unless FIXED_SEED is in the environment, so that instructions can be counted. To be called once, before the first map is used. */
void map_seed_draw(void);

/* Eight numbers in a row stand in a row: those that were drawn one after the other are together in the cache. */
static inline uint32_t hash_number(uint32_t number)
{
    return (uint32_t)folded(map_seed.a ^ number >> 3, map_seed.b) << 3 | (number & 7);
}

uint64_t hash_bytes(uint64_t seed, const uint8_t *at, size_t len);

struct map_slot {
    uint32_t key;
    void *value; /* null where the slot is free */
};

struct map {
    struct map_slot *slots;
    uint32_t mask, count; /* the mask is 0 as long as there are no slots */
};

static inline void *map_get(const struct map *map, uint32_t key)
{
    if (!map->mask)
        return NULL;
    for (uint32_t at = hash_number(key) & map->mask;; at = (at + 1) & map->mask) {
        const struct map_slot *slot = &map->slots[at];
        if (!slot->value)
            return NULL;
        if (slot->key == key)
            return slot->value;
    }
}

/* Puts in a key that is not there. */
void map_add(struct map *map, uint32_t key, void *value);

/* Takes out a key that is there. */
void map_remove(struct map *map, uint32_t key);

void map_free(struct map *map);

/* Goes over the values: `for (uint32_t i = 0; map_next(map, &i, &value);)`. Nothing may be added or removed meanwhile. */
static inline int map_next(const struct map *map, uint32_t *at, void **value)
{
    while (map->mask && *at <= map->mask) {
        *value = map->slots[(*at)++].value;
        if (*value)
            return 1;
    }
    return 0;
}

#endif
