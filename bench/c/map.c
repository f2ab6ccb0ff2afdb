#include "map.h"

#include <sys/random.h>
#include <time.h>

struct seed map_seed = {0x9e3779b97f4a7c15u, 0xd1342543de82ef95u};

void map_seed_draw(void)
{
    struct seed drawn;
    if (getenv("FIXED_SEED"))
        return;
    if (getrandom(&drawn, sizeof drawn, GRND_NONBLOCK) != (ssize_t)sizeof drawn)
        drawn = (struct seed){(uint64_t)time(NULL), (uint64_t)(uintptr_t)&drawn};
    map_seed.a ^= drawn.a;
    map_seed.b = (map_seed.b ^ drawn.b) | 1;
}

static uint64_t word_at(const uint8_t *at)
{
    uint64_t word;
    memcpy(&word, at, 8);
    return word;
}

static uint64_t half_at(const uint8_t *at)
{
    uint32_t half;
    memcpy(&half, at, 4);
    return half;
}

uint64_t hash_bytes(uint64_t seed, const uint8_t *at, size_t len)
{
    uint64_t hash = seed ^ map_seed.a ^ folded(len, map_seed.b);
    for (; len > 16; at += 16, len -= 16)
        hash = folded(word_at(at) ^ map_seed.b, word_at(at + 8) ^ hash);
    /* what is left has at most 16 bytes, of which two words tell all */
    uint64_t first, last;
    if (len >= 8) {
        first = word_at(at);
        last = word_at(at + len - 8);
    } else if (len >= 4) {
        first = half_at(at);
        last = half_at(at + len - 4);
    } else {
        first = len ? (uint64_t)at[0] << 16 | (uint64_t)at[len / 2] << 8 | at[len - 1] : 0;
        last = 0;
    }
    return folded(first ^ hash, last ^ map_seed.b);
}

static void put(struct map *map, uint32_t key, void *value)
{
    uint32_t at = hash_number(key) & map->mask;
    while (map->slots[at].value)
        at = (at + 1) & map->mask;
    map->slots[at] = (struct map_slot){key, value};
}

void map_add(struct map *map, uint32_t key, void *value)
{
    /* at most three quarters full */
    if (!map->mask || (map->count + 1) / 3 > map->mask / 4) {
        struct map old = *map;
        map->mask = old.mask ? old.mask * 2 + 1 : 15;
        map->slots = make_zeroed((size_t)map->mask + 1, sizeof *map->slots);
        for (uint32_t at = 0; old.mask && at <= old.mask; at++)
            if (old.slots[at].value)
                put(map, old.slots[at].key, old.slots[at].value);
        free(old.slots);
    }
    put(map, key, value);
    map->count++;
}

void map_remove(struct map *map, uint32_t key)
{
    uint32_t hole = hash_number(key) & map->mask;
    while (map->slots[hole].key != key || !map->slots[hole].value)
        hole = (hole + 1) & map->mask;
    for (uint32_t at = (hole + 1) & map->mask; map->slots[at].value; at = (at + 1) & map->mask) {
        uint32_t home = hash_number(map->slots[at].key) & map->mask;
        if (((at - home) & map->mask) >= ((at - hole) & map->mask)) {
            map->slots[hole] = map->slots[at];
            hole = at;
        }
    }
    map->slots[hole].value = NULL;
    map->count--;
}

void map_free(struct map *map)
{
    free(map->slots);
    *map = (struct map){0};
}
