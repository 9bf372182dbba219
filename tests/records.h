/* Pages and records of the C tests. */
#ifndef RECORDS_H
#define RECORDS_H

#include "check.h"
#include "marshbodkin.h"

/* Part by part: the bytes between a struct's fields count for nothing. */
static inline bool same_record(const mb_record *one, const mb_record *other)
{
    for (size_t i = 0; i < 8; i++)
        if (one->r[i] != other->r[i])
            return false;
    return one->sp == other->sp && one->base.kind == other->base.kind && one->base.offset == other->base.offset &&
           one->place == other->place && one->n == other->n && one->z == other->z && one->c == other->c &&
           one->v == other->v;
}

static inline void put_halfword(uint8_t *page, size_t place, uint32_t halfword)
{
    page[2 * place] = (uint8_t)halfword;
    page[2 * place + 1] = (uint8_t)(halfword >> 8);
}

static inline void put_halfwords(uint8_t *page, const uint16_t *halfwords, size_t number)
{
    for (size_t i = 0; i < number; i++)
        put_halfword(page, i, halfwords[i]);
}

#endif
