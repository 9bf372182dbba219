/* What a step or a run answers and how it stopped, for the C tests. */
#ifndef ANSWERS_H
#define ANSWERS_H

#include "check.h"
#include "marshbodkin.h"

/* What a call didn't write shows. */
#define STALE 0xAAAAAAAAu

struct answer {
    uint32_t code;
    mb_stopped stopped;
};

static const struct answer stale = {STALE, {STALE, STALE, STALE, STALE, STALE}};

static inline void check_answer(int line, struct answer a, uint32_t code, mb_stopped expected)
{
    check(line, "code", a.code, code);
    check(line, "kind", a.stopped.kind, expected.kind);
    check(line, "value", a.stopped.value, expected.value);
    check(line, "literal", a.stopped.literal, expected.literal);
    check(line, "position", a.stopped.position, expected.position);
    check(line, "steps", a.stopped.steps, expected.steps);
}

#define STOPS(got, kind, value, literal, steps) \
    check_answer(__LINE__, (got), MB_ACCEPTED, (mb_stopped){(kind), (value), (literal), 0, (steps)})

#endif
