/*
 * Shared by the C yardsticks, machine.c and engine.c: endings, conditions and the
 * test of a layout.
 */
#ifndef RULES_H
#define RULES_H

#include "../include/hemdroas.h"

/* The ending of each status. */
static const uint32_t LASTING[] = {
    HEMDROAS_ENDING_SPENT, HEMDROAS_ENDING_ENDED, HEMDROAS_ENDING_NO_ARROW, HEMDROAS_ENDING_FAULT, HEMDROAS_ENDING_NO_LANDING};

/* Whether condition c holds of x and y. */
static int holds(unsigned c, uint32_t x, uint32_t y) {
    switch (c) {
    case 0: return 1;
    case 1: return x == y;
    case 2: return x < y;
    default: return (int32_t)x < (int32_t)y;
    }
}

/* Whether a layout is right. */
static int right(uint32_t u, uint32_t sl, uint32_t sh, uint32_t m, uint32_t p, uint32_t s, uint32_t q) {
    if (sh < sl || u <= sh) return 0;
    uint32_t span = sh - sl + 1;
    uint64_t end = (uint64_t)p + 16 * (uint64_t)s, qe = (uint64_t)q + 32;
    return u <= 4096 && 1 <= s && s <= 16 && (span & (span - 1)) == 0 && sl % span == 0 && m < u && end <= u && qe <= u
        && (m < sl || sh < m) && (m < p || end <= m) && (sh < p || end <= sl)
        && (m < q || qe <= m) && (sh < q || qe <= sl) && (end <= q || qe <= p);
}

#endif
