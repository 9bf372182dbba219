/* The header's calls on images, against values worked out by hand from 02; and the proved step, since the header's is a run. */
#include "answers.h"
#include "check.h"
#include "marshbodkin.h"
#include "records.h"

#include <stdlib.h>
#include <string.h>

enum { PAGES = 5 };

/* ---- what is lent: bytes in one struct and a record, so that a call's traces are found by comparing all of it */

struct areas {
    uint8_t image[(PAGES + 1) * MB_IMAGE_PAGE_BYTES];
    uint8_t index[PAGES + 1];
    uint8_t page[MB_IMAGE_PAGE_BYTES + 4];
    uint8_t ram[MB_RAM_BYTES + 1];
    uint8_t external[512];
};

static struct areas lent, before;
static mb_record record, record_before;
static size_t image_length, index_length, page_length, ram_length, external_length;
static uint64_t never_return;
static uint32_t profile, number, window_start, window_end;

static void keep(void)
{
    before = lent;
    record_before = record;
}

static uint32_t changed(void)
{
    return memcmp(&lent, &before, sizeof lent) != 0 || !same_record(&record, &record_before);
}

/* A page of these halfwords, with unlisted ones behind them. */
static void put_page(uint8_t *page, const uint16_t *halfwords, size_t of)
{
    memset(page, 0xDE, MB_IMAGE_PAGE_BYTES);
    put_halfwords(page, halfwords, of);
}

#define HALFWORDS(...) ((const uint16_t[]){__VA_ARGS__})
#define PUT(page, ...) put_page((page), HALFWORDS(__VA_ARGS__), sizeof HALFWORDS(__VA_ARGS__) / sizeof(uint16_t))

static uint8_t *page_at(size_t at) { return lent.image + MB_IMAGE_PAGE_BYTES * at; }

/* Of counts 1, 0, 2, 2 and 0; under the small profile the third is 0, and with syscall 0 in the set the last is 1. */
static void put_pages(void)
{
    PUT(page_at(0), 0x2001, 0xDF00);
    PUT(page_at(1), 0xDE00);
    PUT(page_at(2), 0xF241, 0x2034, 0xBF00, 0xDF00); /* movw */
    PUT(page_at(3), 0x9000, 0x4800, 0xBF00, 0xDF00); /* a stack store, a literal load */
    PUT(page_at(4), 0xBF00, 0xDF80);
}

static const uint8_t counts[PAGES] = {1, 0, 2, 2, 0};

/* An accepted beginning: the image with its index, page 0, a filled RAM, all of it the window, no external data, the fresh
 * record; and a page to put, of count 2. */
static void begin(void)
{
    memset(&lent, 0x5A, sizeof lent);
    for (size_t i = 0; i < sizeof lent.ram; i++)
        lent.ram[i] = (uint8_t)(7 * i + 3);
    for (size_t i = 0; i < sizeof lent.external; i++)
        lent.external[i] = (uint8_t)(5 * i + 1);
    put_pages();
    memcpy(lent.index, counts, sizeof counts);
    PUT(lent.page, 0xBF00, 0xBF00, 0xBF00, 0xDF00);
    image_length = PAGES * MB_IMAGE_PAGE_BYTES;
    index_length = PAGES;
    page_length = MB_IMAGE_PAGE_BYTES;
    ram_length = MB_RAM_BYTES;
    external_length = 0;
    never_return = 0;
    profile = MB_PROFILE_FULL;
    number = 0;
    window_start = 0;
    window_end = MB_RAM_BYTES;
    record = mb_fresh();
}

/* ---- the calls with what is lent */

static mb_image image(void)
{
    mb_image of = mb_image_of(lent.image, image_length, lent.index, index_length);
    of.never_return = never_return;
    of.profile = profile;
    return of;
}

static mb_image_setting setting(void)
{
    mb_image_setting on = mb_image_setting_of(image(), lent.external, external_length);
    on.window_start = window_start;
    on.window_end = window_end;
    return on;
}

static uint32_t build(void)
{
    mb_image of = image();
    return mb_image_build(&of);
}

static uint32_t replace(void)
{
    mb_image of = image();
    return mb_image_replace(&of, number, lent.page, page_length);
}

static struct answer run(uint32_t budget)
{
    struct answer a = stale;
    mb_image_setting on = setting();
    a.code = mb_image_run(&on, number, lent.ram, ram_length, &record, budget, &a.stopped);
    return a;
}

static struct answer step(void)
{
    struct answer a = stale;
    mb_image_setting on = setting();
    a.code = mb_image_step(&on, number, lent.ram, ram_length, &record, &a.stopped);
    return a;
}

/* The proved step and run, on bytes. */
static struct answer raw_step(uint8_t *bytes, size_t length)
{
    struct answer a = stale;
    mb_stopped *s = &a.stopped;
    a.code = mb_raw_image_step(lent.image, image_length, lent.index, index_length, never_return, profile, number, lent.ram,
                               ram_length, lent.external, external_length, window_start, window_end, bytes, length, &s->kind,
                               &s->value, &s->literal, &s->position, &s->steps);
    return a;
}

static struct answer raw_run(uint8_t *bytes, size_t length)
{
    struct answer a = stale;
    mb_stopped *s = &a.stopped;
    a.code = mb_raw_image_run(lent.image, image_length, lent.index, index_length, never_return, profile, number, lent.ram,
                              ram_length, lent.external, external_length, window_start, window_end, bytes, length, 10, &s->kind,
                              &s->value, &s->literal, &s->position, &s->steps);
    return a;
}

static void check_refusal(int line, struct answer a, uint32_t code, uint32_t position)
{
    check_answer(line, a, code, (mb_stopped){MB_STOP_REFUSED, code, 0, position, 0});
    check(line, "changed", changed(), 0);
}

/* A step and a run are refused, the header's and the proved ones, and leave everything as it was. */
static void check_refused(int line, uint32_t code, uint32_t position)
{
    uint8_t bytes[MB_RECORD_BYTES], bytes_before[MB_RECORD_BYTES];
    keep();
    mb_internal_to_bytes(&record, bytes);
    memcpy(bytes_before, bytes, sizeof bytes);
    check_refusal(line, run(10), code, position);
    check_refusal(line, step(), code, position);
    check_refusal(line, raw_run(bytes, sizeof bytes), code, position);
    check_refusal(line, raw_step(bytes, sizeof bytes), code, position);
    check(line, "bytes changed", memcmp(bytes, bytes_before, sizeof bytes) != 0, 0);
}

#define REFUSED_AT(code, position) check_refused(__LINE__, (code), (position))
#define REFUSED(code) REFUSED_AT(code, 0)

/* A build and a replacement that are refused, and leave everything as it was. */
static void check_not_built(int line, uint32_t code)
{
    keep();
    check(line, "build", build(), code);
    check(line, "changed by a build", changed(), 0);
}

static void check_not_replaced(int line, uint32_t code)
{
    keep();
    check(line, "replace", replace(), code);
    check(line, "changed by a replacement", changed(), 0);
}

#define NOT_BUILT(code) check_not_built(__LINE__, (code))
#define NOT_REPLACED(code) check_not_replaced(__LINE__, (code))

/* ---- initialisers */

static void initialisers(void)
{
    mb_image_setting on;
    begin();
    on = mb_image_setting_of(mb_image_of(lent.image, image_length, lent.index, index_length), lent.external, 256);
    CHECK(on.image.image == lent.image, true);
    CHECK(on.image.image_length == image_length, true);
    CHECK(on.image.index == lent.index, true);
    CHECK(on.image.index_length == index_length, true);
    CHECK(on.image.never_return == 0, true);
    CHECK(on.image.profile, MB_PROFILE_FULL);
    CHECK(on.external == lent.external, true);
    CHECK(on.external_length == 256, true);
    CHECK(on.window_start, 0);
    CHECK(on.window_end, 32768);
}

/* ---- build */

/* The index is what is built, and nothing else changes. */
static void check_built(int line, const uint8_t *expected)
{
    memset(lent.index, 0x5A, sizeof lent.index);
    keep();
    check(line, "build", build(), MB_ACCEPTED);
    check(line, "index", memcmp(lent.index, expected, PAGES) == 0, true);
    memcpy(before.index, expected, PAGES);
    check(line, "changed", changed(), 0);
}

static void builds(void)
{
    static const uint8_t in_small[PAGES] = {1, 0, 0, 2, 0}, with_set[PAGES] = {1, 0, 2, 2, 1};
    begin();
    check_built(__LINE__, counts);
    profile = MB_PROFILE_SMALL;
    check_built(__LINE__, in_small);
    profile = MB_PROFILE_FULL;
    never_return = mb_syscall_bit(0);
    check_built(__LINE__, with_set);
    never_return = ~mb_syscall_bit(0);
    check_built(__LINE__, counts);
}

static void builds_refused(void)
{
    static const size_t lengths[] = {0, 1, 255, 257, 511, 5 * 256 - 1, 5 * 256 + 1};
    begin();
    for (size_t i = 0; i < sizeof lengths / sizeof lengths[0]; i++) {
        image_length = lengths[i];
        index_length = lengths[i] / 256;
        NOT_BUILT(MB_REFUSED_IMAGE_LENGTH);
        index_length++;
        NOT_BUILT(MB_REFUSED_IMAGE_LENGTH);
        profile = 2;
        NOT_BUILT(MB_REFUSED_UNKNOWN_PROFILE);
        profile = MB_PROFILE_FULL;
    }
    begin();
    for (index_length = 0; index_length <= PAGES + 1; index_length++)
        if (index_length != PAGES)
            NOT_BUILT(MB_REFUSED_INDEX_LENGTH);
    profile = UINT32_MAX;
    NOT_BUILT(MB_REFUSED_UNKNOWN_PROFILE);
}

/* The most pages there may be, and one more. */
static void largest(void)
{
    const size_t most = MB_IMAGE_PAGES_MOST, bytes = MB_IMAGE_PAGE_BYTES * (most + 1);
    uint8_t *large = malloc(bytes), *index = malloc(most + 1);
    mb_image of = mb_image_of(large, bytes, index, most + 1);
    if (large == NULL || index == NULL)
        exit(2);
    for (size_t at = 0; at <= most; at++)
        PUT(large + MB_IMAGE_PAGE_BYTES * at, 0xBF00, 0xDF00);
    memset(index, 0x5A, most + 1);
    begin();
    CHECK(mb_image_build(&of), MB_REFUSED_IMAGE_LENGTH);
    CHECK(mb_image_replace(&of, 0, lent.page, page_length), MB_REFUSED_IMAGE_LENGTH);
    of.image_length -= MB_IMAGE_PAGE_BYTES;
    CHECK(mb_image_build(&of), MB_REFUSED_INDEX_LENGTH);
    CHECK(index[0], 0x5A);
    of.index_length--;
    CHECK(mb_image_build(&of), MB_ACCEPTED);
    for (size_t at = 0; at < most; at++)
        CHECK(index[at], 1);
    CHECK(index[most], 0x5A);
    CHECK(mb_image_replace(&of, MB_IMAGE_PAGES_MOST, lent.page, page_length), MB_REFUSED_NO_SUCH_PAGE);
    CHECK(mb_image_replace(&of, MB_IMAGE_PAGES_MOST - 1, lent.page, page_length), MB_ACCEPTED);
    CHECK(index[most - 1], 2);
    mb_image_setting on = mb_image_setting_of(of, NULL, 0);
    struct answer a = stale;
    a.code = mb_image_run(&on, MB_IMAGE_PAGES_MOST - 1, lent.ram, ram_length, &record, 10, &a.stopped);
    STOPS(a, MB_STOP_SERVICE, 0, 0, 4);
    free(index);
    free(large);
}

/* ---- replacements */

static void replacements(void)
{
    for (uint32_t at = 0; at < PAGES; at++) {
        begin();
        number = at;
        keep();
        CHECK(replace(), MB_ACCEPTED);
        memcpy(before.image + MB_IMAGE_PAGE_BYTES * at, lent.page, MB_IMAGE_PAGE_BYTES);
        before.index[at] = 2;
        CHECK(changed(), 0);
    }
    /* Bytes that are wrong elsewhere stay. */
    memset(lent.index, 0x5A, sizeof lent.index);
    number = 1;
    keep();
    CHECK(replace(), MB_ACCEPTED);
    memcpy(before.image + MB_IMAGE_PAGE_BYTES, lent.page, MB_IMAGE_PAGE_BYTES);
    before.index[1] = 2;
    CHECK(changed(), 0);
}

static void replacements_by_the_platform(void)
{
    begin();
    PUT(lent.page, 0xBF00, 0xDF80);
    CHECK(replace(), MB_ACCEPTED);
    CHECK(lent.index[0], 0);
    never_return = mb_syscall_bit(0);
    CHECK(replace(), MB_ACCEPTED);
    CHECK(lent.index[0], 1);
    PUT(lent.page, 0xF241, 0x2034, 0xBF00, 0xDF00);
    CHECK(replace(), MB_ACCEPTED);
    CHECK(lent.index[0], 2);
    profile = MB_PROFILE_SMALL;
    CHECK(replace(), MB_ACCEPTED);
    CHECK(lent.index[0], 0);
}

static void replacements_refused(void)
{
    static const uint32_t past[] = {PAGES, PAGES + 1, 4095, 4096, 65536, UINT32_C(1) << 31, UINT32_MAX};
    static const size_t lengths[] = {0, 4, 252, 255, 257, 260};
    for (size_t i = 0; i < sizeof past / sizeof past[0]; i++) {
        begin();
        number = past[i];
        NOT_REPLACED(MB_REFUSED_NO_SUCH_PAGE);
    }
    for (size_t i = 0; i < sizeof lengths / sizeof lengths[0]; i++) {
        begin();
        number = PAGES - 1;
        page_length = lengths[i];
        NOT_REPLACED(MB_REFUSED_PAGE_LENGTH);
    }
}

/* Everything wrong at first, and then mended part by part: 18, 12, 13, 14, 1. */
static void order_of_replacements(void)
{
    begin();
    profile = 2;
    image_length--;
    number = PAGES;
    index_length++;
    page_length = 252;
    NOT_REPLACED(MB_REFUSED_UNKNOWN_PROFILE);
    profile = MB_PROFILE_SMALL;
    NOT_REPLACED(MB_REFUSED_IMAGE_LENGTH);
    image_length++;
    NOT_REPLACED(MB_REFUSED_NO_SUCH_PAGE);
    number = PAGES - 1;
    NOT_REPLACED(MB_REFUSED_INDEX_LENGTH);
    index_length--;
    NOT_REPLACED(MB_REFUSED_PAGE_LENGTH);
    page_length = 256;
    CHECK(replace(), MB_ACCEPTED);
}

/* ---- steps and runs */

static void runs(void)
{
    begin();
    STOPS(run(100), MB_STOP_SERVICE, 0, 0, 2);
    CHECK(record.r[0], 1);
    CHECK(record.place, 1);
    record = mb_fresh();
    number = 2;
    STOPS(step(), MB_STOP_BUDGET, 0, 0, 1);
    CHECK(record.r[0], 0x1234);
    STOPS(run(1), MB_STOP_BUDGET, 0, 0, 1);
    STOPS(run(100), MB_STOP_SERVICE, 0, 0, 1);
    record = mb_fresh();
    number = 4;
    never_return = mb_syscall_bit(0);
    lent.index[4] = 1;
    STOPS(run(100), MB_STOP_SERVICE, 0x80, 0, 2);
    CHECK(record.place, 1);
}

/* A run in a page gives what the page gives alone. */
static void runs_alone(void)
{
    for (uint32_t at = 0; at < PAGES; at++) {
        mb_record own = mb_fresh();
        struct answer a, alone = stale;
        mb_setting on = mb_setting_of(mb_program_of(page_at(at), MB_IMAGE_PAGE_BYTES), NULL, 0);
        static uint8_t own_ram[MB_RAM_BYTES];
        begin();
        number = at;
        own.sp = record.sp = 0x10000;
        memcpy(own_ram, lent.ram, sizeof own_ram);
        a = run(100);
        alone.code = mb_run(&on, own_ram, sizeof own_ram, &own, 100, &alone.stopped);
        check_answer(__LINE__, a, alone.code, alone.stopped);
        CHECK(same_record(&record, &own), true);
        CHECK(memcmp(lent.ram, own_ram, sizeof own_ram) == 0, true);
    }
}

/* RAM is written inside the window alone; external data is read. */
static void windows_and_data(void)
{
    begin();
    number = 3;
    record.sp = 0x10000;
    record.r[0] = 0x89ABCDEF;
    window_end = 3;
    STOPS(run(10), MB_STOP_FAULT, MB_FAULT_OUTSIDE_WINDOW, 0, 0);
    window_end = 4;
    STOPS(step(), MB_STOP_BUDGET, 0, 0, 1);
    CHECK(lent.ram[0], 0xEF);
    CHECK(lent.ram[4], 7 * 4 + 3);
    PUT(lent.page, 0xF8D8, 0x0000, 0xBF00, 0xDF00);
    CHECK(replace(), MB_ACCEPTED);
    external_length = 512;
    record = mb_fresh();
    record.base.kind = MB_BASE_EXTERNAL;
    record.base.offset = 256;
    STOPS(step(), MB_STOP_BUDGET, 0, 0, 1);
    CHECK(record.r[0], 0x100B0601);
}

/* A literal load from the last bundle is past the page, though another follows. */
static void ends_of_pages(void)
{
    begin();
    for (size_t place = 0; place < 128; place++)
        put_halfword(page_at(0), place, place % 2 == 0 ? 0xBF00 : 0xDF00);
    put_halfword(page_at(0), 126, 0x4800);
    CHECK(build(), MB_ACCEPTED);
    CHECK(lent.index[0], 64);
    record.place = 126;
    STOPS(run(10), MB_STOP_FAULT, MB_FAULT_PAST_PAGE, 0, 0);
    record.place = 128;
    REFUSED(MB_REFUSED_UNFIT_PLACE);
}

static void wrong_bytes(void)
{
    for (size_t at = 0; at < PAGES; at++) {
        for (number = 0; number < PAGES; number++) {
            uint32_t in = number;
            begin();
            number = in;
            lent.index[at]++;
            REFUSED(MB_REFUSED_WRONG_INDEX);
            lent.index[at] = (uint8_t)(lent.index[at] - 2);
            REFUSED(MB_REFUSED_WRONG_INDEX);
        }
    }
    /* The index of another platform. */
    begin();
    profile = MB_PROFILE_SMALL;
    REFUSED(MB_REFUSED_WRONG_INDEX);
    profile = MB_PROFILE_FULL;
    never_return = mb_syscall_bit(0);
    REFUSED(MB_REFUSED_WRONG_INDEX);
}

/* Everything wrong at first, and then mended part by part: 18, 12, 13, 14, 21, 2, 3, 20, 255, 41 to 44, 5. */
static void order_of_runs(void)
{
    begin();
    profile = 2;
    image_length--;
    number = PAGES;
    index_length--;
    lent.index[2]++;
    ram_length = 1;
    external_length = 1;
    window_start = 1;
    window_end = 0;
    record.sp = 0xFFFE;
    record.place = 128;
    record.base.kind = 3;
    record.base.offset = 1;
    REFUSED(MB_REFUSED_UNKNOWN_PROFILE);
    profile = MB_PROFILE_FULL;
    REFUSED(MB_REFUSED_IMAGE_LENGTH);
    image_length++;
    REFUSED(MB_REFUSED_NO_SUCH_PAGE);
    number = 0;
    REFUSED(MB_REFUSED_INDEX_LENGTH);
    index_length++;
    REFUSED(MB_REFUSED_WRONG_INDEX);
    lent.index[2]--;
    REFUSED(MB_REFUSED_RAM_LENGTH);
    ram_length = MB_RAM_BYTES;
    REFUSED(MB_REFUSED_EXTERNAL_LENGTH);
    external_length = 0;
    REFUSED(MB_REFUSED_WINDOW_BOUNDS);
    window_end = 1;
    REFUSED_AT(MB_REFUSED_NO_RECORD, MB_AT_BASE_KIND);
    record.base.kind = MB_BASE_NONE;
    REFUSED_AT(MB_REFUSED_NO_RECORD, MB_AT_BASE_OFFSET);
    record.base.kind = MB_BASE_RAM;
    record.base.offset = 0x100000;
    REFUSED(MB_REFUSED_SP_BOUNDS);
    record.sp = 0x10002;
    REFUSED(MB_REFUSED_SP_ALIGNMENT);
    record.sp = 0x18000;
    REFUSED(MB_REFUSED_RAM_OFFSET);
    record.base.kind = MB_BASE_EXTERNAL;
    REFUSED(MB_REFUSED_EXTERNAL_OFFSET);
    record.base.kind = MB_BASE_NONE;
    record.base.offset = 0;
    REFUSED(MB_REFUSED_UNFIT_PLACE);
    record.place = 2; /* fit in page 2, not in this one */
    REFUSED(MB_REFUSED_UNFIT_PLACE);
    number = 2;
    STOPS(run(10), MB_STOP_SERVICE, 0, 0, 2);
}

/* ---- null pointers with length 0 */

static void nulls(void)
{
    mb_image nothing = mb_image_of(NULL, 0, NULL, 0), of;
    mb_image_setting on = mb_image_setting_of(nothing, NULL, 0);
    mb_stopped stopped = mb_nothing_run();
    begin();
    of = image();
    CHECK(mb_image_build(&nothing), MB_REFUSED_IMAGE_LENGTH);
    CHECK(mb_image_replace(&nothing, 0, NULL, 0), MB_REFUSED_IMAGE_LENGTH);
    CHECK(mb_image_replace(&of, 0, NULL, 0), MB_REFUSED_PAGE_LENGTH);
    CHECK(mb_image_run(&on, 0, NULL, 0, &record, 10, &stopped), MB_REFUSED_IMAGE_LENGTH);
    CHECK(mb_image_step(&on, 0, NULL, 0, &record, &stopped), MB_REFUSED_IMAGE_LENGTH);
    on = mb_image_setting_of(of, NULL, 0);
    CHECK(mb_image_run(&on, 0, NULL, 0, &record, 10, &stopped), MB_REFUSED_RAM_LENGTH);
    CHECK(mb_image_run(&on, 0, lent.ram, ram_length, &record, 10, &stopped), MB_ACCEPTED);
    of.index = NULL;
    of.index_length = 0;
    CHECK(mb_image_build(&of), MB_REFUSED_INDEX_LENGTH);
}

int main(void)
{
    void (*const tests[])(void) = {
        initialisers, builds, builds_refused, largest, replacements, replacements_by_the_platform, replacements_refused,
        order_of_replacements, runs, runs_alone, windows_and_data, ends_of_pages, wrong_bytes, order_of_runs, nulls,
    };
    for (size_t i = 0; i < sizeof tests / sizeof tests[0]; i++)
        tests[i]();
    return outcome("image.c");
}
