/* Chance for the differential tests: numbers that follow from a seed alone. */
#ifndef LOGODWEN_CHANCE_H
#define LOGODWEN_CHANCE_H

#include <stdbool.h>
#include <stdint.h>
#include <stdio.h>
#include <stdlib.h>
#include <string.h>

static uint64_t chance;

static inline void begin_chance(uint64_t seed) { chance = seed * 0xD1342543DE82EF95u + 1; }

static inline uint32_t any(void) {
    chance += 0x9E3779B97F4A7C15u;
    uint64_t z = chance;
    z = (z ^ z >> 30) * 0xBF58476D1CE4E5B9u;
    z = (z ^ z >> 27) * 0x94D049BB133111EBu;
    return (uint32_t)(z >> 32 ^ z >> 3);
}

static inline uint32_t below(uint32_t n) { return any() % n; }
static inline bool one_in(uint32_t n) { return below(n) == 0; }

/* A number of any size. (Two numbers by chance never stand in one expression that C may work out in either order.) */
static inline uint32_t wild(void) {
    uint32_t value = any();
    return value >> below(32);
}

/* An argument of a program: a number of digits alone, at most 18 of them. */
static inline uint64_t number(const char *program, const char *text) {
    size_t digits = strspn(text, "0123456789");
    if (digits == 0 || digits > 18 || text[digits] != 0) {
        fprintf(stderr, "%s: '%s' is no number of 1 to 18 digits\n", program, text);
        exit(2);
    }
    return strtoull(text, NULL, 10);
}

#endif
