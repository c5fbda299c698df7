/* Numbers that look random and are the same for the same seed. */
#ifndef RANDOM_H
#define RANDOM_H

#include <stdbool.h>
#include <stdint.h>

struct random {
    uint64_t state;
};

static inline uint64_t random_64(struct random *r) {
    uint64_t z = r->state += 0x9e3779b97f4a7c15u;
    z = (z ^ z >> 30) * 0xbf58476d1ce4e5b9u;
    z = (z ^ z >> 27) * 0x94d049bb133111ebu;
    return z ^ z >> 31;
}

/* The numbers of one input of a run: each input can be made again by itself. */
static inline struct random random_of(uint64_t seed, uint64_t input) {
    struct random r = {seed};
    r.state = random_64(&r) + input;
    r.state = random_64(&r);
    return r;
}

static inline uint32_t below(struct random *r, uint32_t n) {
    return (uint32_t)((random_64(r) >> 32) * n >> 32);
}

static inline uint32_t between(struct random *r, uint32_t least, uint32_t most) {
    return least + below(r, most - least + 1);
}

/* True once in n times. */
static inline bool once_in(struct random *r, uint32_t n) {
    return below(r, n) == 0;
}

#endif
