/* The header's calls, against values worked out by hand from 01; the proved calls where bytes or lengths matter that
 * the header's calls cannot hand over. */
#include "answers.h"
#include "check.h"
#include "marshbodkin.h"
#include "records.h"

#include <stdlib.h>
#include <string.h>

/* ---- what is lent: bytes in one struct and a record, so that a call's traces are found by comparing all of it */

struct areas {
    uint8_t page[MB_PAGE_MOST + 4];
    uint8_t ram[MB_RAM_BYTES + 1];
    uint8_t external[512];
    uint8_t room[MB_RECORD_BYTES + 1];
    uint8_t packed[80]; /* thirteen numbers of six groups, and more */
};

static struct areas lent, before;
static mb_record record, record_before;
static size_t page_length, ram_length, external_length, room_length, packed_length;

/* The syscalls that never return and the profile, and those that a test begins with. */
static uint64_t never_return, never_return_at_first;
static uint32_t profile, profile_at_first;

/* The window of RAM. */
static uint32_t window_start, window_end;

static void set_window(uint32_t start, uint32_t end)
{
    window_start = start;
    window_end = end;
}

#define BIT(n) (UINT64_C(1) << (n))
#define ALL UINT64_MAX

static void keep(void)
{
    before = lent;
    record_before = record;
}

static uint32_t changed(void)
{
    return memcmp(&lent, &before, sizeof lent) != 0 || !same_record(&record, &record_before);
}

static void page_of(const uint16_t *halfwords, size_t number)
{
    page_length = 2 * number;
    put_halfwords(lent.page, halfwords, number);
}

#define HALFWORDS(...) ((const uint16_t[]){__VA_ARGS__})
#define PAGE(...) page_of(HALFWORDS(__VA_ARGS__), sizeof HALFWORDS(__VA_ARGS__) / sizeof(uint16_t))

static mb_program program(void)
{
    mb_program of = mb_program_of(lent.page, page_length);
    of.never_return = never_return;
    of.profile = profile;
    return of;
}

static mb_setting setting(void)
{
    mb_setting on = mb_setting_of(program(), lent.external, external_length);
    on.window_start = window_start;
    on.window_end = window_end;
    return on;
}

static void set_base(uint8_t kind, uint32_t offset)
{
    record.base.kind = kind;
    record.base.offset = offset;
}

static uint32_t ram_word(size_t at)
{
    const uint8_t *bytes = lent.ram + at;
    return bytes[0] + 256u * bytes[1] + 65536u * bytes[2] + 16777216u * bytes[3];
}

/* 01's fresh record, by hand. */
static mb_record fresh_by_hand(void)
{
    mb_record fresh;
    memset(&fresh, 0, sizeof fresh);
    fresh.sp = 0x18000;
    return fresh;
}

/* An accepted beginning: 01's printed page, a filled RAM, all of it the window, no external data, the fresh record. */
static void begin(void)
{
    memset(&lent, 0x5A, sizeof lent);
    for (size_t i = 0; i < sizeof lent.ram; i++)
        lent.ram[i] = (uint8_t)(7 * i + 3);
    for (size_t i = 0; i < sizeof lent.external; i++)
        lent.external[i] = (uint8_t)(5 * i + 1);
    PAGE(0x2800, 0xD001, 0x2001, 0xDF00, 0x2000, 0xDF00, 0x2000, 0xBF00);
    ram_length = MB_RAM_BYTES;
    external_length = 0;
    room_length = MB_RECORD_BYTES;
    packed_length = MB_SHORT_MOST;
    never_return = never_return_at_first;
    profile = profile_at_first;
    set_window(0, MB_RAM_BYTES);
    record = fresh_by_hand();
}

/* ---- the calls with what is lent */

static struct answer run(uint32_t budget)
{
    struct answer a = stale;
    mb_setting on = setting();
    a.code = mb_run(&on, lent.ram, ram_length, &record, budget, &a.stopped);
    return a;
}

static struct answer step(void)
{
    struct answer a = stale;
    mb_setting on = setting();
    a.code = mb_step(&on, lent.ram, ram_length, &record, &a.stopped);
    return a;
}

/* The proved run and step, on bytes. The header's step is a run, so that only here is the proved one called. */
static struct answer raw_run(uint8_t *bytes, size_t length)
{
    struct answer a = stale;
    mb_stopped *s = &a.stopped;
    a.code = mb_raw_run(lent.page, page_length, never_return, profile, lent.ram, ram_length, lent.external, external_length,
                        window_start, window_end, bytes, length, 10, &s->kind, &s->value, &s->literal, &s->position, &s->steps);
    return a;
}

static struct answer raw_step(uint8_t *bytes, size_t length)
{
    struct answer a = stale;
    mb_stopped *s = &a.stopped;
    a.code = mb_raw_step(lent.page, page_length, never_return, profile, lent.ram, ram_length, lent.external, external_length,
                         window_start, window_end, bytes, length, &s->kind, &s->value, &s->literal, &s->position, &s->steps);
    return a;
}

/* What was refused left everything as it was kept. */
static void check_refusal(int line, struct answer a, uint32_t code, uint32_t position)
{
    check_answer(line, a, code, (mb_stopped){MB_STOP_REFUSED, code, 0, position, 0});
    check(line, "changed", changed(), 0);
}

/* The proved step and run are refused on such bytes, and leave them as they were. */
static void check_bytes_refused(int line, const uint8_t *bytes, size_t length, uint32_t code, uint32_t position)
{
    uint8_t given[MB_RECORD_BYTES + 1], given_before[sizeof given];
    memset(given, 0x5A, sizeof given);
    memcpy(given, bytes, length);
    memcpy(given_before, given, sizeof given);
    check_refusal(line, raw_run(given, length), code, position);
    check(line, "bytes changed by the run", memcmp(given, given_before, sizeof given) != 0, 0);
    check_refusal(line, raw_step(given, length), code, position);
    check(line, "bytes changed by the step", memcmp(given, given_before, sizeof given) != 0, 0);
}

#define BYTES_REFUSED(bytes, length, code, position) check_bytes_refused(__LINE__, (bytes), (length), (code), (position))

/* A step and a run are refused, the header's and the proved ones. */
static void check_refused(int line, uint32_t code, uint32_t position)
{
    uint8_t bytes[MB_RECORD_BYTES];
    keep();
    check_refusal(line, run(10), code, position);
    check_refusal(line, step(), code, position);
    mb_internal_to_bytes(&record, bytes);
    check_bytes_refused(line, bytes, sizeof bytes, code, position);
}

#define REFUSED_AT(code, position) check_refused(__LINE__, (code), (position))
#define REFUSED(code) REFUSED_AT(code, 0)

/* A step and a run fault at their first instruction, and leave everything as it was. */
static void check_fault(int line, uint32_t number)
{
    mb_stopped expected = {MB_STOP_FAULT, number, 0, 0, 0};
    keep();
    check_answer(line, run(10), MB_ACCEPTED, expected);
    check_answer(line, step(), MB_ACCEPTED, expected);
    check(line, "changed", changed(), 0);
}

#define FAULTS(number) check_fault(__LINE__, (number))

/* The proved store and load on bytes: the answer, and the position, which they write whatever they answer. */
static void check_raw_store(int line, const uint8_t *bytes, size_t length, uint32_t code, uint32_t position)
{
    uint32_t told = STALE;
    check(line, "proved store", mb_raw_store(bytes, length, lent.room, room_length, &told), code);
    check(line, "position of the proved store", told, position);
}

static void check_raw_load(int line, uint8_t *bytes, size_t length, uint32_t code, uint32_t position)
{
    uint32_t told = STALE;
    check(line, "proved load", mb_raw_load(lent.room, room_length, bytes, length, &told), code);
    check(line, "position of the proved load", told, position);
}

/* The header's store into the room as it was given, and whether it leaves what the proved one does. */
static void check_room(int line, const uint8_t *given, const uint8_t *stored, uint32_t code, mb_refused *refused)
{
    memcpy(lent.room, given, sizeof lent.room);
    check(line, "store", mb_store(&record, lent.room, room_length, refused), code);
    check(line, "room as the proved store leaves it", memcmp(lent.room, stored, sizeof lent.room) == 0, true);
}

/* A store, and a load, with what each says in an mb_refused; the same without one, and the proved ones. */
static void check_store(int line, uint32_t code, uint32_t position)
{
    uint8_t bytes[MB_RECORD_BYTES], given[sizeof lent.room], stored[sizeof lent.room];
    mb_refused refused = {STALE, STALE};
    memcpy(given, lent.room, sizeof given);
    mb_internal_to_bytes(&record, bytes);
    check_raw_store(line, bytes, sizeof bytes, code, position);
    memcpy(stored, lent.room, sizeof stored);
    check_room(line, given, stored, code, NULL);
    check_room(line, given, stored, code, &refused);
    check(line, "what the store says", refused.number, code);
    check(line, "where, by the store", refused.position, position);
}

static void check_load(int line, uint32_t code, uint32_t position)
{
    uint8_t bytes[MB_RECORD_BYTES];
    mb_refused refused = {STALE, STALE};
    check(line, "load", mb_load(lent.room, room_length, &record, &refused), code);
    check(line, "what the load says", refused.number, code);
    check(line, "where, by the load", refused.position, position);
    check(line, "load, saying nothing", mb_load(lent.room, room_length, &record, NULL), code);
    check_raw_load(line, bytes, sizeof bytes, code, position);
}

#define STORES(code) check_store(__LINE__, (code), 0)
#define LOADS(code) check_load(__LINE__, (code), 0)

/* The only change that a pack is to make: so many bytes of a form at the start of the room for it. */
static void expect_packed(const uint8_t *form, size_t length)
{
    memset(lent.packed, 0x5A, sizeof lent.packed);
    keep();
    if (length > 0)
        memcpy(before.packed, form, length);
}

static void check_packed(int line, uint32_t answer, uint32_t code, size_t told, size_t length)
{
    check(line, "pack", answer, code);
    check(line, "length", told == length, true);
    check(line, "changed by the pack, or not written", changed(), 0);
}

static void check_header_pack(int line, uint32_t code, const uint8_t *form, size_t length, mb_refused *refused)
{
    size_t told = SIZE_MAX;
    uint32_t answer;
    expect_packed(form, length);
    answer = mb_pack(lent.room, room_length, lent.packed, packed_length, &told, refused);
    check_packed(line, answer, code, told, length);
}

/* A pack of what stands in the room of a stored form, as the store is checked. Refused, it comes to length 0. */
static void check_pack(int line, uint32_t code, uint32_t position, const uint8_t *form, size_t length)
{
    mb_refused refused = {STALE, STALE};
    uint32_t answer, position_told = STALE;
    size_t told = SIZE_MAX;
    expect_packed(form, length);
    answer = mb_raw_pack(lent.room, room_length, lent.packed, packed_length, &told, &position_told);
    check_packed(line, answer, code, told, length);
    check(line, "position of the proved pack", position_told, position);
    check_header_pack(line, code, form, length, NULL);
    check_header_pack(line, code, form, length, &refused);
    check(line, "what the pack says", refused.number, code);
    check(line, "where, by the pack", refused.position, position);
}

/* The only change that an unpack is to make: a stored form in the room, or none. */
static void expect_unpacked(const uint8_t *stored)
{
    memset(lent.room, 0x5A, sizeof lent.room);
    keep();
    if (stored != NULL)
        memcpy(before.room, stored, MB_RECORD_BYTES);
}

static void check_header_unpack(int line, uint32_t code, const uint8_t *stored, mb_refused *refused)
{
    expect_unpacked(stored);
    check(line, "unpack", mb_unpack(lent.packed, packed_length, lent.room, room_length, refused), code);
    check(line, "changed by the unpack, or not written", changed(), 0);
}

static void check_unpack(int line, uint32_t code, uint32_t position, const uint8_t *stored)
{
    mb_refused refused = {STALE, STALE};
    uint32_t told = STALE;
    expect_unpacked(stored);
    check(line, "proved unpack", mb_raw_unpack(lent.packed, packed_length, lent.room, room_length, &told), code);
    check(line, "position of the proved unpack", told, position);
    check(line, "changed by the proved unpack, or not written", changed(), 0);
    check_header_unpack(line, code, stored, NULL);
    check_header_unpack(line, code, stored, &refused);
    check(line, "what the unpack says", refused.number, code);
    check(line, "where, by the unpack", refused.position, position);
}

#define NOT_PACKED(code) check_pack(__LINE__, (code), 0, NULL, 0)
#define NOT_UNPACKED(code) check_unpack(__LINE__, (code), 0, NULL)

/* ---- initialisers and version */

static void initialisers(void)
{
    mb_record fresh = mb_fresh(), by_hand = fresh_by_hand();
    mb_stopped nothing = mb_nothing_run();
    mb_setting on;
    begin();
    on = mb_setting_of(mb_program_of(lent.page, page_length), lent.external, external_length);
    CHECK(mb_version(), MB_VERSION);
    CHECK(same_record(&fresh, &by_hand), true);
    CHECK(nothing.kind, MB_STOP_BUDGET);
    CHECK(nothing.value, 0);
    CHECK(nothing.literal, 0);
    CHECK(nothing.position, 0);
    CHECK(nothing.steps, 0);
    CHECK(on.program.page == lent.page, true);
    CHECK(on.program.page_length == page_length, true);
    CHECK(on.program.never_return == 0, true);
    CHECK(on.program.profile, MB_PROFILE_FULL);
    CHECK(on.external == lent.external, true);
    CHECK(on.external_length == external_length, true);
    CHECK(on.window_start, 0);
    CHECK(on.window_end, 32768);
}

/* ---- count and reader */

static void check_count(int line, uint32_t expected)
{
    uint32_t count = STALE;
    mb_program of = program();
    check(line, "code", mb_count(&of, &count), MB_ACCEPTED);
    check(line, "count", count, expected);
}

#define COUNT(expected, ...) (PAGE(__VA_ARGS__), check_count(__LINE__, (expected)))

/* The number of what is refused of the program; no bundle is counted. */
static void check_not_counted(int line, uint32_t code)
{
    uint32_t count = STALE;
    mb_program of = program();
    check(line, "code", mb_count(&of, &count), code);
    check(line, "count", count, 0);
}

#define NOT_COUNTED(code) check_not_counted(__LINE__, (code))

static void counts(void)
{
    begin();
    COUNT(3, 0x2800, 0xD001, 0x2001, 0xDF00, 0x2000, 0xDF00, 0x2000, 0xBF00);
    page_length = 0;
    check_count(__LINE__, 0);
    COUNT(1, 0x2001, 0xDF00);
    COUNT(0, 0x2001, 0xBF00);
    COUNT(1, 0xE7FE, 0xBF00);
    COUNT(0, 0xE7FE, 0xDE00);
    COUNT(0, 0xBF00, 0xE7FE);
    COUNT(1, 0xBF00, 0xE7FD);
    COUNT(0, 0xE7FC, 0xBF00);
    COUNT(0, 0xE000, 0xBF00, 0x2001, 0xBF00, 0xDE00, 0xDE00);
    COUNT(2, 0xF8C9, 0x0000, 0x2001, 0xDF00);
    COUNT(0, 0xF8C8, 0x0000, 0x2001, 0xDF00);
    COUNT(1, 0xBF00, 0xDF01, 0x0001, 0x0000);
    COUNT(0, 0xBF00, 0xDF01, 0x0002, 0x0000);
    COUNT(0, 0xBF00, 0xDF01, 0x0000, 0x0000);
    COUNT(0, 0xBF00, 0xDF02, 0x0001, 0x0000);
}

/* 64 bundles of nop and return: the largest page has the largest count. */
static void count_of_a_full_page(void)
{
    for (size_t place = 0; place < MB_PAGE_MOST / 2; place++)
        put_halfword(lent.page, place, place % 2 == 0 ? 0xBF00 : 0xDF00);
    page_length = MB_PAGE_MOST;
    check_count(__LINE__, 64);
}

static void count_refused(void)
{
    const size_t lengths[] = {1, 2, 3, 5, 255, 257, 260};
    begin();
    keep();
    for (size_t i = 0; i < sizeof lengths / sizeof lengths[0]; i++) {
        page_length = lengths[i];
        NOT_COUNTED(MB_REFUSED_PAGE_LENGTH);
    }
    CHECK(changed(), 0);
}

static void check_bundle(int line, uint32_t k, uint32_t code, uint32_t kind, uint32_t largest)
{
    mb_reading reading = {STALE, STALE};
    mb_program of = program();
    check(line, "code", mb_read_bundle(&of, k, &reading), code);
    check(line, "kind", reading.kind, kind);
    check(line, "largest", reading.largest, largest);
}

#define BUNDLE(k, code, kind, largest) check_bundle(__LINE__, (k), (code), (kind), (largest))

static void bundles(void)
{
    begin();
    keep();
    BUNDLE(0, MB_ACCEPTED, MB_SUCCESSOR_LARGEST, 2);
    BUNDLE(1, MB_ACCEPTED, MB_SUCCESSOR_NOTHING, 0);
    BUNDLE(2, MB_ACCEPTED, MB_SUCCESSOR_NOTHING, 0);
    BUNDLE(3, MB_ACCEPTED, MB_SUCCESSOR_LARGEST, 4);
    BUNDLE(4, MB_REFUSED_NO_SUCH_BUNDLE, MB_SUCCESSOR_BAD, 0);
    BUNDLE(0xFFFFFFFF, MB_REFUSED_NO_SUCH_BUNDLE, MB_SUCCESSOR_BAD, 0);
    page_length = 15;
    BUNDLE(0, MB_REFUSED_PAGE_LENGTH, MB_SUCCESSOR_BAD, 0);
    BUNDLE(4, MB_REFUSED_PAGE_LENGTH, MB_SUCCESSOR_BAD, 0); /* 1 before 8 */
    CHECK(changed(), 0);
    PAGE(0xF8C8, 0x0000, 0x2001, 0xDF00);
    BUNDLE(0, MB_ACCEPTED, MB_SUCCESSOR_BAD, 0);
    page_length = 0;
    BUNDLE(0, MB_REFUSED_NO_SUCH_BUNDLE, MB_SUCCESSOR_BAD, 0);
}

/* ---- base validation */

static void check_base(int line, mb_setting on, uint32_t address, uint32_t code, uint32_t kind, uint32_t offset)
{
    mb_base base = {0xAA, STALE};
    check(line, "code", mb_validate(&on, address, &base), code);
    check(line, "kind", base.kind, kind);
    check(line, "offset", base.offset, offset);
}

#define BASE_OF(bytes, length, address, code, kind, offset) \
    check_base(__LINE__, mb_setting_of(program(), (bytes), (length)), (address), (code), (kind), (offset))
#define BASE(address, length, kind, offset) BASE_OF(lent.external, length, address, MB_ACCEPTED, kind, offset)
#define NO_BASE(address, length) BASE_OF(lent.external, length, address, MB_REFUSED_EXTERNAL_LENGTH, MB_BASE_NONE, 0)

static void bases(void)
{
    begin();
    keep();
    BASE(0x00000, 0, MB_BASE_RAM, 0xF0000);
    BASE(0x0FFFF, 0, MB_BASE_RAM, 0xFFFFF);
    BASE(0x10000, 0, MB_BASE_RAM, 0);
    BASE(0x17FFF, 0, MB_BASE_RAM, 0x7FFF);
    BASE(0x18000, 0, MB_BASE_RAM, 0x8000);
    BASE(0xFFFFF, 0, MB_BASE_RAM, 0xEFFFF);
    BASE(0x110000, 0, MB_BASE_RAM, 0);
    BASE(0x7FFFFFFF, 256, MB_BASE_RAM, 0xEFFFF);
    BASE(0x80000000, 0, MB_BASE_NONE, 0);
    BASE(0x80000000, 256, MB_BASE_EXTERNAL, 0);
    BASE(0x800000FF, 256, MB_BASE_EXTERNAL, 255);
    BASE(0x80000100, 256, MB_BASE_NONE, 0);
    BASE(0xFFFFFFFF, 512, MB_BASE_NONE, 0);
    NO_BASE(0x10000, 1);
    NO_BASE(0x10000, 255);
    NO_BASE(0x80000000, 257);
    page_length = 3; /* which is not looked at, and neither is the profile */
    profile = 2;
    BASE(0x10000, 0, MB_BASE_RAM, 0);
    NO_BASE(0x10000, 1);
    CHECK(changed(), 0);
}

/* The most external data there may be, and one page more. */
static void base_at_the_end(void)
{
    uint8_t *most = calloc(MB_EXTERNAL_MOST + 256, 1);
    CHECK(most != NULL, true);
    if (most == NULL)
        return;
    BASE_OF(most, MB_EXTERNAL_MOST, 0x80FFFFFF, MB_ACCEPTED, MB_BASE_EXTERNAL, 0xFFFFFF);
    BASE_OF(most, MB_EXTERNAL_MOST + 256, 0x80FFFFFF, MB_REFUSED_EXTERNAL_LENGTH, MB_BASE_NONE, 0);
    free(most);
}

/* ---- store and load */

/* Each part at an end of its range, and its bytes in 01's order. */
static const mb_record full = {
    {0x04030201, 0x14131211, 0x24232221, 0x34333231, 0x44434241, 0x54535251, 0x64636261, 0xFFFFFFFF},
    0x10000, {MB_BASE_RAM, 0xFFFFF}, 127, true, true, true, true,
};
static const uint8_t full_bytes[MB_RECORD_BYTES] = {
    0x01, 0x02, 0x03, 0x04, 0x11, 0x12, 0x13, 0x14, 0x21, 0x22, 0x23, 0x24, 0x31, 0x32, 0x33, 0x34,
    0x41, 0x42, 0x43, 0x44, 0x51, 0x52, 0x53, 0x54, 0x61, 0x62, 0x63, 0x64, 0xFF, 0xFF, 0xFF, 0xFF,
    0x00, 0x00, 0x01, 0x00, /* SP 0x10000 */
    0x01, 0xFF, 0xFF, 0x0F, 0x00, /* RAM offset 0xFFFFF */
    0x7F, 0x00, /* place 127 */
    0x0F /* N, Z, C, V */
};

static void stored_and_read_back(void)
{
    begin();
    record = full;
    STORES(MB_ACCEPTED);
    CHECK(memcmp(lent.room, full_bytes, sizeof full_bytes) == 0, true);
    CHECK(lent.room[MB_RECORD_BYTES], 0x5A);
    record = fresh_by_hand();
    LOADS(MB_ACCEPTED);
    CHECK(same_record(&record, &full), true);
    set_base(MB_BASE_EXTERNAL, 0xFFFFFF); /* whatever the data's length */
    record_before = record;
    STORES(MB_ACCEPTED);
    record = fresh_by_hand();
    LOADS(MB_ACCEPTED);
    CHECK(same_record(&record, &record_before), true);
}

/* One field each with a value out of range: where it stands, the kind that the base then has, the value, and what a step and a
 * run without external data refuse it by. */
typedef struct { uint32_t position; uint8_t kind; uint32_t value, refusal; } damage;

static const damage damages[] = {
    {MB_AT_SP, 0, 0xFFFC, MB_REFUSED_SP_BOUNDS}, {MB_AT_SP, 0, 0x18004, MB_REFUSED_SP_BOUNDS},
    {MB_AT_SP, 0, 0, MB_REFUSED_SP_BOUNDS}, {MB_AT_SP, 0, UINT32_MAX, MB_REFUSED_SP_BOUNDS},
    {MB_AT_SP, 0, 0x18001, MB_REFUSED_SP_BOUNDS}, {MB_AT_SP, 0, 0x10001, MB_REFUSED_SP_ALIGNMENT},
    {MB_AT_SP, 0, 0x17FFE, MB_REFUSED_SP_ALIGNMENT}, {MB_AT_SP, 0, 0x17FFF, MB_REFUSED_SP_ALIGNMENT},
    {MB_AT_BASE_KIND, 3, 0, MB_REFUSED_NO_RECORD}, {MB_AT_BASE_KIND, 3, 1, MB_REFUSED_NO_RECORD},
    {MB_AT_BASE_KIND, 255, 0, MB_REFUSED_NO_RECORD}, {MB_AT_BASE_KIND, 255, UINT32_MAX, MB_REFUSED_NO_RECORD},
    {MB_AT_BASE_OFFSET, MB_BASE_NONE, 1, MB_REFUSED_NO_RECORD},
    {MB_AT_BASE_OFFSET, MB_BASE_NONE, 0x80000000, MB_REFUSED_NO_RECORD},
    {MB_AT_BASE_OFFSET, MB_BASE_RAM, 0x100000, MB_REFUSED_RAM_OFFSET},
    {MB_AT_BASE_OFFSET, MB_BASE_RAM, UINT32_MAX, MB_REFUSED_RAM_OFFSET},
    {MB_AT_BASE_OFFSET, MB_BASE_EXTERNAL, 0x1000000, MB_REFUSED_EXTERNAL_OFFSET},
    {MB_AT_BASE_OFFSET, MB_BASE_EXTERNAL, UINT32_MAX, MB_REFUSED_EXTERNAL_OFFSET},
    {MB_AT_PLACE, 0, 128, MB_REFUSED_UNFIT_PLACE}, {MB_AT_PLACE, 0, 256, MB_REFUSED_UNFIT_PLACE},
    {MB_AT_PLACE, 0, 65535, MB_REFUSED_UNFIT_PLACE},
};

enum { DAMAGES = sizeof damages / sizeof damages[0] };

static void put_damage(damage d)
{
    switch (d.position) {
    case MB_AT_SP: record.sp = d.value; break;
    case MB_AT_PLACE: record.place = (uint16_t)d.value; break;
    default: set_base(d.kind, d.value);
    }
}

static uint32_t refused_at(damage d) { return d.refusal == MB_REFUSED_NO_RECORD ? d.position : 0; }

static bool of_the_base(damage d) { return d.position == MB_AT_BASE_KIND || d.position == MB_AT_BASE_OFFSET; }

/* Whether a record can have both: they are of two fields, and not both of the base, which is put whole. */
static bool together(damage one, damage other)
{
    return one.position != other.position && !(of_the_base(one) && of_the_base(other));
}

static uint32_t lower(uint32_t one, uint32_t other) { return one < other ? one : other; }

/* The stored form isn't packed, whatever room there is: 7 before 10. */
static void check_not_packed(int line, uint32_t position)
{
    for (packed_length = 0; packed_length <= MB_SHORT_MOST; packed_length += MB_SHORT_MOST)
        check_pack(line, MB_REFUSED_FORM_RANGE, position, NULL, 0);
}

/* The record isn't stored, and its bytes are not read back or packed, with flags above 15 neither. */
static void check_out_of_range(int line, uint32_t position)
{
    keep();
    check_store(line, MB_REFUSED_FORM_RANGE, position);
    check(line, "changed by the store", changed(), 0);
    mb_internal_to_bytes(&record, lent.room);
    keep();
    check_load(line, MB_REFUSED_FORM_RANGE, position);
    lent.room[MB_AT_FLAGS] = before.room[MB_AT_FLAGS] = 16;
    check_load(line, MB_REFUSED_FORM_RANGE, position);
    check(line, "changed by the load", changed(), 0);
    check_not_packed(line, position);
    lent.room[MB_AT_FLAGS] = 0;
    check_not_packed(line, position);
}

static void out_of_range(void)
{
    for (size_t i = 0; i < DAMAGES; i++) {
        begin();
        put_damage(damages[i]);
        check_out_of_range(__LINE__, damages[i].position);
    }
}

/* The first field decides. */
static void out_of_range_twice(void)
{
    for (size_t i = 0; i < DAMAGES * DAMAGES; i++) {
        damage one = damages[i / DAMAGES], other = damages[i % DAMAGES];
        if (!together(one, other))
            continue;
        begin();
        put_damage(one);
        put_damage(other);
        check_out_of_range(__LINE__, lower(one.position, other.position));
    }
}

/* The full record's bytes with one byte changed, which then isn't in range: by any byte of a field, at its first. */
static void not_read_back(void)
{
    const uint8_t changes[][3] = {
        {32, 1, 32}, {33, 0x81, 32}, {34, 2, 32}, {34, 0, 32}, {35, 1, 32}, {36, 3, 36}, {36, 255, 36}, {36, 0, 37},
        {39, 0x10, 37}, {40, 1, 37}, {41, 128, 41}, {42, 1, 41}, {43, 16, 43}, {43, 255, 43},
    };
    for (size_t i = 0; i < sizeof changes / sizeof changes[0]; i++) {
        begin();
        memcpy(lent.room, full_bytes, sizeof full_bytes);
        lent.room[changes[i][0]] = changes[i][1];
        keep();
        check_load(__LINE__, MB_REFUSED_FORM_RANGE, changes[i][2]);
        CHECK(changed(), 0);
        check_not_packed(__LINE__, changes[i][2]);
    }
}

static void form_length(void)
{
    const size_t lengths[] = {0, 43, 45};
    for (size_t i = 0; i < sizeof lengths / sizeof lengths[0]; i++) {
        begin();
        room_length = lengths[i];
        keep();
        STORES(MB_REFUSED_FORM_LENGTH);
        LOADS(MB_REFUSED_FORM_LENGTH);
        CHECK(changed(), 0);
        record.sp = 0x18004; /* 6 before 7 */
        set_base(3, 0);
        keep();
        STORES(MB_REFUSED_FORM_LENGTH);
        CHECK(changed(), 0);
    }
}

/* ---- the short form */

static const uint8_t fresh_bytes[MB_RECORD_BYTES] = {[MB_AT_SP + 1] = 0x80, [MB_AT_SP + 2] = 0x01};
static const uint8_t fresh_short[MB_SHORT_LEAST] = {0};

static const uint8_t full_short[] = {
    0x81, 0x84, 0x8C, 0x20, 0x91, 0xA4, 0xCC, 0xA0, 0x01, 0xA1, 0xC4, 0x8C, 0xA1, 0x02, 0xB1, 0xE4, 0xCC, 0xA1, 0x03,
    0xC1, 0x84, 0x8D, 0xA2, 0x04, 0xD1, 0xA4, 0xCD, 0xA2, 0x05, 0xE1, 0xC4, 0x8D, 0xA3, 0x06, 0xFF, 0xFF, 0xFF, 0xFF, 0x0F,
    0x80, 0x40, /* 8,192 words from SP to 0x18000 */
    0x01, 0xFF, 0xFF, 0x3F, 0x7F, 0x0F
};

/* A record of the longest short form: every number has as many groups as it can have. */
static const uint8_t longest_bytes[MB_RECORD_BYTES] = {
    0xFF, 0xFF, 0xFF, 0xFF, 0x00, 0x00, 0x00, 0x10, 0x00, 0x00, 0x00, 0x80, 0x78, 0x56, 0x34, 0x12,
    0xFF, 0xFF, 0xFF, 0x1F, 0xEF, 0xCD, 0xAB, 0x89, 0xFE, 0xFF, 0xFF, 0xFF, 0x10, 0x32, 0x54, 0x76,
    0x00, 0x00, 0x01, 0x00, /* SP 0x10000 */
    0x02, 0xFF, 0xFF, 0xFF, 0x00, /* external offset 0xFFFFFF */
    0x7F, 0x00, 0x0F
};
static const uint8_t longest_short[MB_SHORT_MOST] = {
    0xFF, 0xFF, 0xFF, 0xFF, 0x0F, 0x80, 0x80, 0x80, 0x80, 0x01, 0x80, 0x80, 0x80, 0x80, 0x08, 0xF8, 0xAC, 0xD1, 0x91, 0x01,
    0xFF, 0xFF, 0xFF, 0xFF, 0x01, 0xEF, 0x9B, 0xAF, 0xCD, 0x08, 0xFE, 0xFF, 0xFF, 0xFF, 0x0F, 0x90, 0xE4, 0xD0, 0xB2, 0x07,
    0x80, 0x40, 0x02, 0xFF, 0xFF, 0xFF, 0x07, 0x7F, 0x0F
};

static const struct { const uint8_t *stored, *packed; size_t length; } forms[] = {
    {fresh_bytes, fresh_short, sizeof fresh_short}, {full_bytes, full_short, sizeof full_short},
    {longest_bytes, longest_short, sizeof longest_short},
};

enum { FORMS = sizeof forms / sizeof forms[0] };

/* The 44 bytes give the short form, what stands there then gives the 44 bytes, and these the short form again. */
static void check_both_ways(int line, const uint8_t *stored, const uint8_t *form, size_t length)
{
    memcpy(lent.room, stored, MB_RECORD_BYTES);
    packed_length = length;
    check_pack(line, MB_ACCEPTED, 0, form, length);
    check_unpack(line, MB_ACCEPTED, 0, stored);
    check_pack(line, MB_ACCEPTED, 0, form, length);
}

static void short_forms(void)
{
    for (size_t i = 0; i < FORMS; i++) {
        begin();
        check_both_ways(__LINE__, forms[i].stored, forms[i].packed, forms[i].length);
    }
}

/* Rooms of every length: it is by this record's form that one is too small, and what is past the form stays. */
static void rooms_of_short_forms(void)
{
    for (size_t i = 0; i < FORMS; i++) {
        begin();
        memcpy(lent.room, forms[i].stored, MB_RECORD_BYTES);
        for (packed_length = 0; packed_length < forms[i].length; packed_length++)
            NOT_PACKED(MB_REFUSED_ROOM_TOO_SMALL);
        for (; packed_length <= sizeof lent.packed; packed_length++)
            check_pack(__LINE__, MB_ACCEPTED, 0, forms[i].packed, forms[i].length);
    }
}

/* A short form number by number, each in its groups. The first eight are r0 to r7. */
typedef struct { uint8_t length, bytes[6]; } groups;

enum { SP = 8, BASE_KIND, BASE_OFFSET, PLACE, FLAGS, NUMBERS };

static groups numbers[NUMBERS];

static uint32_t position_of(size_t which)
{
    const uint32_t behind_sp[] = {MB_AT_BASE_KIND, MB_AT_BASE_OFFSET, MB_AT_PLACE, MB_AT_FLAGS};
    return which <= SP ? (uint32_t)(4 * which) : behind_sp[which - BASE_KIND];
}

/* The fresh record's, in which no offset stands. */
static void begin_numbers(void)
{
    begin();
    for (size_t i = 0; i < NUMBERS; i++)
        numbers[i] = (groups){1, {0}};
    numbers[BASE_OFFSET].length = 0;
}

/* One of them; with a kind an offset, and with an offset the kind that it is of. */
static void put_number(size_t which, uint8_t kind, groups number)
{
    if (which == BASE_KIND)
        numbers[BASE_OFFSET] = (groups){1, {0}};
    if (which == BASE_OFFSET)
        numbers[BASE_KIND] = (groups){1, {kind}};
    numbers[which] = number;
}

static void join_numbers(void)
{
    memset(lent.packed, 0x5A, sizeof lent.packed);
    packed_length = 0;
    for (size_t i = 0; i < NUMBERS; i++) {
        memcpy(lent.packed + packed_length, numbers[i].bytes, numbers[i].length);
        packed_length += numbers[i].length;
    }
}

/* The numbers are those of the record. */
static void check_numbers(int line)
{
    uint8_t stored[MB_RECORD_BYTES], form[MB_SHORT_MOST];
    mb_internal_to_bytes(&record, stored);
    join_numbers();
    memcpy(form, lent.packed, packed_length);
    check_both_ways(line, stored, form, packed_length);
}

/* Registers on both sides of each group more. */
static void short_registers(void)
{
    const struct { uint32_t value; groups number; } registers[] = {
        {0, {1, {0x00}}}, {127, {1, {0x7F}}}, {128, {2, {0x80, 0x01}}},
        {0x3FFF, {2, {0xFF, 0x7F}}}, {0x4000, {3, {0x80, 0x80, 0x01}}},
        {0x1FFFFF, {3, {0xFF, 0xFF, 0x7F}}}, {0x200000, {4, {0x80, 0x80, 0x80, 0x01}}},
        {0xFFFFFFF, {4, {0xFF, 0xFF, 0xFF, 0x7F}}}, {0x10000000, {5, {0x80, 0x80, 0x80, 0x80, 0x01}}},
        {UINT32_MAX, {5, {0xFF, 0xFF, 0xFF, 0xFF, 0x0F}}},
    };
    for (size_t i = 0; i < 8 * sizeof registers / sizeof registers[0]; i++) {
        begin_numbers();
        record.r[i % 8] = registers[i / 8].value;
        put_number(i % 8, 0, registers[i / 8].number);
        check_numbers(__LINE__);
    }
}

static void short_sps(void)
{
    const struct { uint32_t sp; groups words; } sps[] = {
        {0x17FFC, {1, {0x01}}}, {0x17E04, {1, {0x7F}}}, {0x17E00, {2, {0x80, 0x01}}},
        {0x10004, {2, {0xFF, 0x3F}}}, {0x10000, {2, {0x80, 0x40}}},
    };
    for (size_t i = 0; i < sizeof sps / sizeof sps[0]; i++) {
        begin_numbers();
        record.sp = sps[i].sp;
        put_number(SP, 0, sps[i].words);
        check_numbers(__LINE__);
    }
}

static void short_bases(void)
{
    const struct { mb_base base; groups offset; } bases[] = {
        {{MB_BASE_RAM, 0}, {1, {0x00}}}, {{MB_BASE_RAM, 0xFFFFF}, {3, {0xFF, 0xFF, 0x3F}}},
        {{MB_BASE_EXTERNAL, 0}, {1, {0x00}}}, {{MB_BASE_EXTERNAL, 0x100000}, {3, {0x80, 0x80, 0x40}}},
        {{MB_BASE_EXTERNAL, 0xFFFFFF}, {4, {0xFF, 0xFF, 0xFF, 0x07}}},
    };
    for (size_t i = 0; i < sizeof bases / sizeof bases[0]; i++) {
        begin_numbers();
        record.base = bases[i].base;
        put_number(BASE_OFFSET, bases[i].base.kind, bases[i].offset);
        check_numbers(__LINE__);
    }
}

/* 2^32, of which 32 bits are 0, and the most that five groups hold. */
#define PAST_A_WORD {5, {0x80, 0x80, 0x80, 0x80, 0x10}}
#define MOST {5, {0xFF, 0xFF, 0xFF, 0xFF, 0x7F}}

/* A number each that its field can't have, and the kind that an offset is of. */
typedef struct { size_t which; uint8_t kind; groups number; } excess;

static const excess excesses[] = {
    {0, 0, PAST_A_WORD}, {0, 0, MOST}, {1, 0, PAST_A_WORD}, {2, 0, MOST}, {3, 0, PAST_A_WORD}, {4, 0, MOST},
    {5, 0, PAST_A_WORD}, {6, 0, MOST}, {7, 0, PAST_A_WORD}, {7, 0, MOST},
    {SP, 0, {2, {0x81, 0x40}}}, /* 8,193 words */
    {SP, 0, {5, {0x80, 0x80, 0x80, 0x80, 0x04}}}, /* 2^30 words, of whose bytes 32 bits are 0 */
    {SP, 0, PAST_A_WORD}, {SP, 0, MOST},
    {BASE_KIND, 0, {1, {3}}}, {BASE_KIND, 0, {2, {0x80, 0x02}}}, /* 256, of which a byte is 0 */
    {BASE_KIND, 0, PAST_A_WORD}, {BASE_KIND, 0, MOST},
    {BASE_OFFSET, MB_BASE_RAM, {3, {0x80, 0x80, 0x40}}}, {BASE_OFFSET, MB_BASE_RAM, PAST_A_WORD},
    {BASE_OFFSET, MB_BASE_EXTERNAL, {4, {0x80, 0x80, 0x80, 0x08}}}, {BASE_OFFSET, MB_BASE_EXTERNAL, PAST_A_WORD},
    {PLACE, 0, {2, {0x80, 0x01}}}, {PLACE, 0, {3, {0x80, 0x80, 0x04}}}, /* 65,536 */
    {PLACE, 0, PAST_A_WORD},
    {FLAGS, 0, {1, {16}}}, {FLAGS, 0, {2, {0x80, 0x02}}}, {FLAGS, 0, PAST_A_WORD},
};

enum { EXCESSES = sizeof excesses / sizeof excesses[0] };

static bool of_base(size_t which) { return which == BASE_KIND || which == BASE_OFFSET; }

/* Whether a form can have both put: they are two numbers, and not both of the base, which is put whole. */
static bool both_put(size_t one, size_t other) { return one != other && !(of_base(one) && of_base(other)); }

static void begin_excess(excess of)
{
    begin_numbers();
    put_number(of.which, of.kind, of.number);
}

/* Told by the position in the 44 bytes, r0's too. */
static void not_unpacked(void)
{
    for (size_t i = 0; i < EXCESSES; i++) {
        begin_excess(excesses[i]);
        join_numbers();
        check_unpack(__LINE__, MB_REFUSED_FORM_RANGE, position_of(excesses[i].which), NULL);
    }
}

/* The first field decides. */
static void not_unpacked_twice(void)
{
    for (size_t i = 0; i < EXCESSES * EXCESSES; i++) {
        excess one = excesses[i / EXCESSES], other = excesses[i % EXCESSES];
        if (!both_put(one.which, other.which))
            continue;
        begin_excess(one);
        put_number(other.which, other.kind, other.number);
        join_numbers();
        check_unpack(__LINE__, MB_REFUSED_FORM_RANGE, lower(position_of(one.which), position_of(other.which)), NULL);
    }
}

/* Thirteen numbers of five groups, 65 bytes, are the most that is read. */
static void most_groups(void)
{
    begin_numbers();
    for (size_t i = 0; i < NUMBERS; i++)
        numbers[i] = (groups)MOST;
    for (size_t i = 0; i < NUMBERS; i++) {
        join_numbers();
        if (i == 0)
            CHECK((uint32_t)packed_length, 65);
        check_unpack(__LINE__, MB_REFUSED_FORM_RANGE, position_of(i), NULL);
        numbers[i] = (groups){1, {i == BASE_KIND ? MB_BASE_RAM : 0}};
    }
}

/* Groups that are no number: a last one of 0 that isn't the first, or a sixth. */
static const groups ungrouped[] = {
    {2, {0x80, 0x00}}, {2, {0xFF, 0x00}}, {3, {0x80, 0x80, 0x00}}, {3, {0x81, 0x80, 0x00}}, {5, {0xFF, 0xFF, 0xFF, 0xFF, 0x00}},
    {6, {0x80, 0x80, 0x80, 0x80, 0x80, 0x00}}, {6, {0x80, 0x80, 0x80, 0x80, 0x80, 0x01}}, {6, {0xFF, 0xFF, 0xFF, 0xFF, 0xFF, 0x7F}},
};

enum { UNGROUPED = sizeof ungrouped / sizeof ungrouped[0] };

static void not_grouped(void)
{
    for (size_t i = 0; i < NUMBERS * UNGROUPED; i++) {
        begin_numbers();
        put_number(i / UNGROUPED, MB_BASE_RAM, ungrouped[i % UNGROUPED]);
        join_numbers();
        NOT_UNPACKED(MB_REFUSED_NOT_GROUPED);
    }
}

/* 9 before 7, whichever of the two numbers stands first. */
static void not_grouped_and_excess(void)
{
    for (size_t i = 0; i < EXCESSES * NUMBERS; i++) {
        excess of = excesses[i / NUMBERS];
        size_t which = i % NUMBERS;
        if (!both_put(of.which, which))
            continue;
        begin_excess(of);
        put_number(which, MB_BASE_RAM, ungrouped[i % UNGROUPED]);
        join_numbers();
        NOT_UNPACKED(MB_REFUSED_NOT_GROUPED);
    }
}

/* What has another length than its numbers: cut off at every byte, an empty input too, or followed by bytes. */
static void check_other_lengths(int line, size_t length)
{
    for (packed_length = 0; packed_length <= sizeof lent.packed; packed_length++)
        if (packed_length != length)
            check_unpack(line, MB_REFUSED_NOT_GROUPED, 0, NULL);
}

static void cut_off_or_followed(void)
{
    for (size_t i = 0; i < FORMS; i++) {
        begin();
        memcpy(lent.packed, forms[i].packed, forms[i].length);
        check_other_lengths(__LINE__, forms[i].length);
        memset(lent.packed + forms[i].length, 0, sizeof lent.packed - forms[i].length);
        check_other_lengths(__LINE__, forms[i].length);
    }
    for (size_t i = 0; i < EXCESSES; i++) {
        begin_excess(excesses[i]);
        join_numbers();
        check_other_lengths(__LINE__, packed_length);
    }
}

/* An offset with none follows; any other kind, known or not, has one, without which the form is cut off. */
static void offsets_by_kind(void)
{
    begin_numbers();
    numbers[BASE_OFFSET].length = 1;
    join_numbers();
    NOT_UNPACKED(MB_REFUSED_NOT_GROUPED);
    for (uint8_t kind = 1; kind < 128; kind++) {
        begin_numbers();
        numbers[BASE_KIND].bytes[0] = kind;
        join_numbers();
        NOT_UNPACKED(MB_REFUSED_NOT_GROUPED);
    }
}

/* 6 before 7 and 10, and before 9 and 7. */
static void lengths_and_short_forms(void)
{
    const size_t lengths[] = {0, 43, 45};
    for (size_t i = 0; i < sizeof lengths / sizeof lengths[0]; i++) {
        begin_excess(excesses[0]);
        room_length = lengths[i];
        memcpy(lent.room, fresh_bytes, sizeof fresh_bytes);
        NOT_PACKED(MB_REFUSED_FORM_LENGTH);
        memset(lent.room, 0xFF, sizeof lent.room);
        packed_length = 0;
        NOT_PACKED(MB_REFUSED_FORM_LENGTH);
        NOT_UNPACKED(MB_REFUSED_FORM_LENGTH); /* cut off */
        join_numbers();
        NOT_UNPACKED(MB_REFUSED_FORM_LENGTH); /* out of range */
        memcpy(lent.packed, fresh_short, sizeof fresh_short);
        packed_length = sizeof fresh_short;
        NOT_UNPACKED(MB_REFUSED_FORM_LENGTH);
    }
}

/* ---- the proved calls: a record of another length, flags above 15 */

static void raw_lengths(void)
{
    const size_t lengths[] = {0, 43, 45};
    uint8_t bytes[MB_RECORD_BYTES + 1], kept[sizeof bytes];
    begin();
    memset(bytes, 0x5A, sizeof bytes);
    memcpy(bytes, full_bytes, sizeof full_bytes);
    memcpy(kept, bytes, sizeof bytes);
    memcpy(lent.room, full_bytes, sizeof full_bytes); /* so that the lengths alone are wrong */
    keep();
    for (size_t i = 0; i < sizeof lengths / sizeof lengths[0]; i++) {
        CHECK(mb_raw_fresh(bytes, lengths[i]), MB_REFUSED_FORM_LENGTH);
        for (room_length = 43; room_length <= 44; room_length++) {
            check_raw_store(__LINE__, bytes, lengths[i], MB_REFUSED_FORM_LENGTH, 0);
            check_raw_load(__LINE__, bytes, lengths[i], MB_REFUSED_FORM_LENGTH, 0);
        }
        BYTES_REFUSED(bytes, lengths[i], MB_REFUSED_NO_RECORD, 0);
    }
    CHECK(changed(), 0);
    CHECK(memcmp(bytes, kept, sizeof bytes) == 0, true);
}

static void raw_flags(void)
{
    uint8_t bytes[MB_RECORD_BYTES];
    begin();
    CHECK(mb_raw_fresh(bytes, sizeof bytes), MB_ACCEPTED);
    bytes[43] = 16;
    keep();
    check_raw_store(__LINE__, bytes, sizeof bytes, MB_REFUSED_FORM_RANGE, MB_AT_FLAGS);
    BYTES_REFUSED(bytes, sizeof bytes, MB_REFUSED_NO_RECORD, MB_AT_FLAGS);
    set_window(1, 0); /* 20 before 255 */
    BYTES_REFUSED(bytes, sizeof bytes, MB_REFUSED_WINDOW_BOUNDS, 0);
    external_length = 1; /* and 3 before 20 */
    BYTES_REFUSED(bytes, sizeof bytes, MB_REFUSED_EXTERNAL_LENGTH, 0);
}

/* Flags above 15 with each damage: a base that is no record's decides before them, SP, offset and place have no part in it. */
static void raw_flags_and_fields(void)
{
    uint8_t bytes[MB_RECORD_BYTES];
    for (size_t i = 0; i < DAMAGES; i++) {
        bool no_record = damages[i].refusal == MB_REFUSED_NO_RECORD;
        begin();
        put_damage(damages[i]);
        mb_internal_to_bytes(&record, bytes);
        bytes[43] = 255;
        keep();
        check_raw_store(__LINE__, bytes, sizeof bytes, MB_REFUSED_FORM_RANGE, damages[i].position);
        BYTES_REFUSED(bytes, sizeof bytes, MB_REFUSED_NO_RECORD, no_record ? damages[i].position : MB_AT_FLAGS);
    }
}

/* ---- steps and runs */

static void printed_run(void)
{
    begin();
    keep();
    STOPS(run(100000), MB_STOP_SERVICE, 0, 0, 4);
    record_before.place = 5;
    record_before.z = record_before.c = true;
    CHECK(changed(), 0);
}

static void budget_zero(void)
{
    begin();
    keep();
    STOPS(run(0), MB_STOP_BUDGET, 0, 0, 0);
    CHECK(changed(), 0);
}

/* The printed run again, cut into slices and then into steps. */
static void slices(void)
{
    printed_run();
    keep();
    record = fresh_by_hand();
    STOPS(run(3), MB_STOP_BUDGET, 0, 0, 3);
    CHECK(record.place, 5);
    STOPS(run(100000), MB_STOP_SERVICE, 0, 0, 1);
    CHECK(changed(), 0);
    record = fresh_by_hand();
    STOPS(step(), MB_STOP_BUDGET, 0, 0, 1);
    CHECK(record.place, 1);
    STOPS(step(), MB_STOP_BUDGET, 0, 0, 1);
    CHECK(record.place, 4);
    STOPS(step(), MB_STOP_BUDGET, 0, 0, 1);
    CHECK(record.place, 5);
    STOPS(step(), MB_STOP_SERVICE, 0, 0, 1);
    CHECK(changed(), 0);
}

static void other_stops(void)
{
    begin();
    PAGE(0xE7FE, 0xBF00);
    STOPS(run(100000), MB_STOP_BUDGET, 0, 0, 100000);
    CHECK(record.place, 0);
    begin();
    PAGE(0xBF00, 0xDF01, 0x0001, 0x0000); /* a tail call keeps its place */
    STOPS(run(100000), MB_STOP_SERVICE_BY_LITERAL, 1, 1, 2);
    CHECK(record.place, 1);
}

static void movw(void)
{
    begin();
    PAGE(0xF241, 0x2034, 0xBF00, 0xDF00);
    STOPS(step(), MB_STOP_BUDGET, 0, 0, 1);
    CHECK(record.r[0], 0x1234);
    CHECK(record.place, 2);
}

/* cmp r0, r1 and blt to bundle 2, taken since N differs from V. */
static void blt(void)
{
    begin();
    PAGE(0x4288, 0xDB01, 0xBF00, 0xDF00, 0xBF00, 0xDF00);
    record.r[0] = 0x80000000;
    record.r[1] = 1;
    keep();
    STOPS(run(2), MB_STOP_BUDGET, 0, 0, 2);
    record_before.c = record_before.v = true; /* N0 Z0 C1 V1 */
    record_before.place = 4;
    CHECK(changed(), 0);
}

static void word_store(void)
{
    begin();
    PAGE(0xF8C9, 0x0000, 0x2001, 0xDF00);
    record.r[0] = 0x89ABCDEF;
    set_base(MB_BASE_RAM, 32764);
    keep();
    STOPS(step(), MB_STOP_BUDGET, 0, 0, 1);
    memcpy(before.ram + 32764, "\xEF\xCD\xAB\x89", 4);
    record_before.place = 2;
    CHECK(changed(), 0);
    record.place = 0;
    set_base(MB_BASE_RAM, 32765);
    FAULTS(MB_FAULT_PAST_RAM);
}

/* The first store, at 28,672 + 4,092, stays when the second, a byte further, faults. */
static void earlier_stores_stay(void)
{
    begin();
    PAGE(0xF8C9, 0x0FFC, 0xF8C9, 0x0FFD, 0x2001, 0xDF00);
    record.r[0] = 0x89ABCDEF;
    set_base(MB_BASE_RAM, 28672);
    STOPS(run(10), MB_STOP_FAULT, MB_FAULT_PAST_RAM, 0, 1);
    CHECK(ram_word(32764), 0x89ABCDEF);
    CHECK(record.place, 2);
}

/* The base by validate(r0), a store by it, and the exit, which leaves the base none. */
static void base_by_service(void)
{
    begin();
    PAGE(0xDFE0, 0xBF00, 0xF8C9, 0x1000, 0x2001, 0xDF00);
    record.r[0] = 0x17FFC;
    record.r[1] = 0x11223344;
    STOPS(run(2), MB_STOP_BUDGET, 0, 0, 2);
    CHECK(record.base.kind, MB_BASE_RAM);
    CHECK(record.base.offset, 32764);
    STOPS(run(100000), MB_STOP_SERVICE, 0, 0, 3);
    CHECK(ram_word(32764), 0x11223344);
    CHECK(record.base.kind, MB_BASE_NONE);
    CHECK(record.base.offset, 0);
}

/* External data is read within the 256 bytes that hold the base. */
static void external_load(void)
{
    begin();
    PAGE(0xF8D8, 0x0000, 0xBF00, 0xDF00);
    external_length = 512;
    set_base(MB_BASE_EXTERNAL, 252);
    STOPS(step(), MB_STOP_BUDGET, 0, 0, 1);
    CHECK(record.r[0], 0xFCF7F2ED); /* 5 * 255 + 1 and so on, modulo 256 */
    record.place = 0;
    set_base(MB_BASE_EXTERNAL, 253);
    FAULTS(MB_FAULT_OFF_EXTERNAL_PAGE);
}

static void other_faults(void)
{
    begin();
    PAGE(0xF8C9, 0x0000, 0x2001, 0xDF00);
    FAULTS(MB_FAULT_NO_BASE);
    external_length = 256;
    set_base(MB_BASE_EXTERNAL, 0);
    FAULTS(MB_FAULT_NO_BASE);
    begin();
    PAGE(0x9800, 0xDF00);
    FAULTS(MB_FAULT_PAST_STACK);
    PAGE(0xDFC1, 0xDF00);
    record.sp = 0x10000;
    FAULTS(MB_FAULT_LOW_STACK);
    PAGE(0x48FF, 0xDF00);
    FAULTS(MB_FAULT_PAST_PAGE);
}

/* ---- refused steps and runs */

static void refused_lengths(void)
{
    begin();
    for (page_length = 1; page_length <= 3; page_length++)
        REFUSED(MB_REFUSED_PAGE_LENGTH);
    page_length = 260;
    REFUSED(MB_REFUSED_PAGE_LENGTH);
    begin();
    ram_length = 0;
    REFUSED(MB_REFUSED_RAM_LENGTH);
    ram_length = MB_RAM_BYTES - 1;
    REFUSED(MB_REFUSED_RAM_LENGTH);
    ram_length = MB_RAM_BYTES + 1;
    REFUSED(MB_REFUSED_RAM_LENGTH);
    begin();
    external_length = 255;
    REFUSED(MB_REFUSED_EXTERNAL_LENGTH);
    external_length = 257;
    REFUSED(MB_REFUSED_EXTERNAL_LENGTH);
}

static void refused_records(void)
{
    for (size_t i = 0; i < DAMAGES; i++) {
        begin();
        put_damage(damages[i]);
        REFUSED_AT(damages[i].refusal, refused_at(damages[i]));
    }
}

/* Which of the refusals of a record a step and a run test first. */
static uint32_t rank(uint32_t refusal)
{
    switch (refusal) {
    case MB_REFUSED_NO_RECORD: return 0;
    case MB_REFUSED_UNFIT_PLACE: return UINT32_MAX;
    default: return refusal; /* 41 to 44 */
    }
}

static void records_refused_twice(void)
{
    for (size_t i = 0; i < DAMAGES * DAMAGES; i++) {
        damage one = damages[i / DAMAGES], other = damages[i % DAMAGES];
        damage first = rank(one.refusal) < rank(other.refusal) ? one : other;
        if (!together(one, other))
            continue;
        begin();
        put_damage(one);
        put_damage(other);
        REFUSED_AT(first.refusal, refused_at(first));
    }
}

/* The ends of what is fit; of external offsets, by the data's length, though all of these are stored. */
static void fit_records(void)
{
    const mb_base bases[] = {{MB_BASE_NONE, 0}, {MB_BASE_RAM, 0}, {MB_BASE_RAM, 0xFFFFF}, {MB_BASE_EXTERNAL, 511}};
    const uint32_t sps[] = {0x10000, 0x10004, 0x17FFC, 0x18000};
    for (size_t i = 0; i < 16; i++) {
        begin();
        external_length = 512;
        record.sp = sps[i / 4];
        record.base = bases[i % 4];
        STOPS(run(100000), MB_STOP_SERVICE, 0, 0, 4);
    }
    for (external_length = 0; external_length <= 512; external_length += 256) {
        record = fresh_by_hand();
        set_base(MB_BASE_EXTERNAL, (uint32_t)external_length);
        REFUSED(MB_REFUSED_EXTERNAL_OFFSET);
        STORES(MB_ACCEPTED);
    }
}

static void refused_places(void)
{
    begin();
    record.place = 6; /* bundle 3 is at the count */
    REFUSED(MB_REFUSED_UNFIT_PLACE);
    record.place = 65535;
    REFUSED(MB_REFUSED_UNFIT_PLACE);
    begin();
    PAGE(0xE7FE, 0xBF00);
    record.place = 1; /* after a terminator */
    REFUSED(MB_REFUSED_UNFIT_PLACE);
    PAGE(0xF8C9, 0x0000, 0x2001, 0xDF00);
    record.place = 1; /* inside a 32-bit instruction */
    REFUSED(MB_REFUSED_UNFIT_PLACE);
    begin();
    page_length = 0; /* count 0 */
    REFUSED(MB_REFUSED_UNFIT_PLACE);
}

/* Everything wrong at first, and then mended part by part: 18, 1 to 3, 20, 255, 41 to 44, 5. */
static void order(void)
{
    begin();
    profile = 2;
    page_length = 3;
    ram_length = 1;
    external_length = 1;
    set_window(UINT32_MAX, MB_RAM_BYTES + 1);
    record.sp = 0xFFFE;
    record.place = 128;
    set_base(3, 1);
    REFUSED(MB_REFUSED_UNKNOWN_PROFILE);
    profile = profile_at_first;
    REFUSED(MB_REFUSED_PAGE_LENGTH);
    page_length = 16;
    REFUSED(MB_REFUSED_RAM_LENGTH);
    ram_length = MB_RAM_BYTES;
    REFUSED(MB_REFUSED_EXTERNAL_LENGTH);
    external_length = 0;
    REFUSED(MB_REFUSED_WINDOW_BOUNDS);
    window_start = 1; /* the end is still past RAM */
    REFUSED(MB_REFUSED_WINDOW_BOUNDS);
    window_end = 0; /* below the start */
    REFUSED(MB_REFUSED_WINDOW_BOUNDS);
    window_end = 1; /* an empty window will do */
    REFUSED_AT(MB_REFUSED_NO_RECORD, MB_AT_BASE_KIND);
    record.base.kind = MB_BASE_NONE;
    REFUSED_AT(MB_REFUSED_NO_RECORD, MB_AT_BASE_OFFSET);
    set_base(MB_BASE_RAM, 0x100000);
    REFUSED(MB_REFUSED_SP_BOUNDS);
    record.sp = 0x10002;
    REFUSED(MB_REFUSED_SP_ALIGNMENT);
    record.sp = 0x18000;
    REFUSED(MB_REFUSED_RAM_OFFSET);
    set_base(MB_BASE_EXTERNAL, 0);
    REFUSED(MB_REFUSED_EXTERNAL_OFFSET);
    set_base(MB_BASE_NONE, 0);
    REFUSED(MB_REFUSED_UNFIT_PLACE);
    record.place = 0;
    STOPS(run(100000), MB_STOP_SERVICE, 0, 0, 4);
}

/* ---- syscalls that never return */

/* Each of the 64 is counted as a terminator by its own bit, and by no other. */
static void counts_of_syscalls(void)
{
    begin();
    for (unsigned n = 0; n < 64; n++) {
        PAGE(0xBF00, (uint16_t)(0xDF80 + n));
        CHECK(mb_syscall_bit(n) == BIT(n), true);
        never_return = 0;
        check_count(__LINE__, 0);
        BUNDLE(0, MB_ACCEPTED, MB_SUCCESSOR_LARGEST, 1);
        never_return = BIT(n);
        check_count(__LINE__, 1);
        BUNDLE(0, MB_ACCEPTED, MB_SUCCESSOR_NOTHING, 0);
        never_return = ALL - BIT(n);
        check_count(__LINE__, 0);
        BUNDLE(0, MB_ACCEPTED, MB_SUCCESSOR_LARGEST, 1);
    }
    CHECK(mb_syscall_bit(64) == 0, true);
    CHECK(mb_syscall_bit(UINT32_MAX) == 0, true);
    never_return = BIT(1);
    COUNT(0, 0xBF00, 0xDF80);
    never_return = BIT(0);
    COUNT(1, 0xDF80, 0xDF7F); /* behind a terminator no literal is looked at */
    COUNT(0, 0xDF80, 0xDE00); /* but what stands there must be listed */
    never_return = 0;
    COUNT(0, 0xDF80, 0xDF7F);
}

/* A run stops at such a syscall with the place kept, so that the next stops there again; at another it moves on. */
static void places_of_syscalls(void)
{
    begin();
    PAGE(0xBF00, 0xDF80, 0xBF00, 0xDF00);
    set_base(MB_BASE_RAM, 8);
    keep();
    never_return = BIT(0);
    STOPS(run(100000), MB_STOP_SERVICE, 0x80, 0, 2);
    record_before.place = 1;
    record_before.base.kind = MB_BASE_NONE;
    record_before.base.offset = 0;
    CHECK(changed(), 0);
    STOPS(step(), MB_STOP_SERVICE, 0x80, 0, 1);
    CHECK(changed(), 0);
    never_return = BIT(63);
    STOPS(run(100000), MB_STOP_SERVICE, 0x80, 0, 1);
    record_before.place = 2;
    CHECK(changed(), 0);
    record.place = 0;
    never_return = 0;
    STOPS(run(100000), MB_STOP_SERVICE, 0x80, 0, 2);
    CHECK(changed(), 0);
}

/* The second half behind such a syscall is no place; behind another it is. */
static void places_behind_syscalls(void)
{
    begin();
    PAGE(0xDFBF, 0xDF00);
    record.place = 1;
    never_return = BIT(63);
    REFUSED(MB_REFUSED_UNFIT_PLACE);
    never_return = ALL;
    REFUSED(MB_REFUSED_UNFIT_PLACE);
    never_return = ALL - BIT(63);
    STOPS(run(100000), MB_STOP_SERVICE, 0, 0, 1);
    CHECK(record.place, 1);
    record.place = 0;
    STOPS(run(100000), MB_STOP_SERVICE, 0xBF, 0, 1);
    CHECK(record.place, 1);
    record.place = 0;
    never_return = ALL;
    STOPS(run(100000), MB_STOP_SERVICE, 0xBF, 0, 1);
    CHECK(record.place, 0);
}

/* No other service goes by the set. The halfword, its literal, the place behind it. */
static void other_services(void)
{
    const struct { uint16_t halfword; uint16_t literal[2]; uint16_t place; } services[] = {
        {0xDF00, {0, 0}, 0}, {0xDFE8, {0, 0}, 1}, {0xDFF0, {0, 0}, 1}, {0xDFF7, {0, 0}, 1}, {0xDFF8, {0, 0}, 0},
        {0xDF01, {0, 0}, 1}, {0xDF01, {1, 0}, 0}, /* call, tail call */
        {0xDF01, {0, 0x8000}, 1}, {0xDF01, {1, 0x8000}, 0}, /* syscall, tail syscall */
    };
    for (size_t i = 0; i < sizeof services / sizeof services[0]; i++) {
        begin();
        never_return = ALL;
        PAGE(services[i].halfword, 0xDF00, services[i].literal[0], services[i].literal[1]);
        CHECK(run(100000).stopped.value, services[i].halfword & 0xFFu);
        CHECK(record.place, services[i].place);
    }
    COUNT(0, 0xBF00, 0xDFC0);
    COUNT(0, 0xBF00, 0xDFE0);
    COUNT(0, 0xBF00, 0xDFE8);
    COUNT(0, 0xBF00, 0xDFF0);
    COUNT(0, 0xBF00, 0xDF01, 0x0000, 0x8000);
}

/* ---- profiles */

/* The counts of a page in the full profile and in the small one. */
static void check_counts(int line, uint32_t in_full, uint32_t in_small)
{
    profile = MB_PROFILE_FULL;
    check_count(line, in_full);
    profile = MB_PROFILE_SMALL;
    check_count(line, in_small);
}

#define COUNTS(in_full, in_small, ...) (PAGE(__VA_ARGS__), check_counts(__LINE__, (in_full), (in_small)))

static void counts_of_profiles(void)
{
    begin();
    COUNTS(2, 0, 0xF241, 0x2034, 0xBF00, 0xDF00); /* movw */
    COUNTS(2, 0, 0xF6C0, 0x7700, 0xBF00, 0xDF00); /* movt */
    COUNTS(2, 0, 0xF8C9, 0x0000, 0xBF00, 0xDF00); /* str */
    COUNTS(2, 0, 0xF9B8, 0x1000, 0xBF00, 0xDF00); /* ldrsh */
    COUNTS(2, 0, 0xFBB0, 0xF6F1, 0xBF00, 0xDF00); /* udiv */
    COUNTS(2, 0, 0xB100, 0xBF00, 0xBF00, 0xDF00); /* cbz */
    COUNTS(2, 0, 0xB900, 0xBF00, 0xBF00, 0xDF00); /* cbnz */
    COUNTS(3, 0, 0xBF00, 0xB908, 0xBF00, 0xDF00, 0xBF00, 0xDF00); /* cbnz in a second half */
    COUNTS(1, 0, 0xDF00, 0xB900); /* behind a terminator, where it must be listed too */
    COUNTS(3, 1, 0xBF00, 0xDF00, 0xF241, 0x2034, 0xBF00, 0xDF00); /* what stands before it is code */
    COUNTS(1, 1, 0xBF00, 0xDF01, 0xF241, 0x0001); /* a tail call's literal, which is no code */
}

/* Two bundles in the full profile and in the small one, which lacks the first: its largest successor in the full one. */
static void check_lacking(int line, uint32_t largest)
{
    for (profile = MB_PROFILE_FULL; profile <= MB_PROFILE_SMALL; profile++) {
        bool lacks = profile == MB_PROFILE_SMALL;
        check_bundle(line, 0, MB_ACCEPTED, lacks ? MB_SUCCESSOR_BAD : MB_SUCCESSOR_LARGEST, lacks ? 0 : largest);
        check_bundle(line, 1, MB_ACCEPTED, MB_SUCCESSOR_LARGEST, 3); /* read alike */
    }
}

static void bundles_of_profiles(void)
{
    begin();
    PAGE(0xF241, 0x2034, 0x2800, 0xD001);
    check_lacking(__LINE__, 1);
    PAGE(0xBF00, 0xB918, 0x2800, 0xD001);
    check_lacking(__LINE__, 3);
}

/* A return, and what the small profile lacks: there a place in it or behind it is not fit, in the full one it is run. */
static void check_places(int line, uint32_t steps)
{
    profile = MB_PROFILE_SMALL;
    record.place = 0;
    check_answer(line, run(100000), MB_ACCEPTED, (mb_stopped){MB_STOP_SERVICE, 0, 0, 0, 2});
    for (record.place = 2; record.place < page_length / 2; record.place++)
        check_refused(line, MB_REFUSED_UNFIT_PLACE, 0);
    profile = MB_PROFILE_FULL;
    record.place = 2;
    check_answer(line, run(100000), MB_ACCEPTED, (mb_stopped){MB_STOP_SERVICE, 0, 0, 0, steps});
}

static void places_of_profiles(void)
{
    begin();
    PAGE(0xBF00, 0xDF00, 0xF241, 0x2034, 0xBF00, 0xDF00);
    check_places(__LINE__, 3);
    CHECK(record.r[0], 0x1234);
    PAGE(0xBF00, 0xDF00, 0xBF00, 0xB908, 0xBF00, 0xBF00, 0xBF00, 0xDF00);
    check_places(__LINE__, 4); /* taken, since r0 isn't 0 */
}

/* Numbers of no profile; of some a part is the number of one. */
static const uint32_t unknown_profiles[] = {2, 255, 256, 0x10001, 0x80000000, UINT32_MAX};

enum { UNKNOWN_PROFILES = sizeof unknown_profiles / sizeof unknown_profiles[0] };

/* 18 before 1 and 8. */
static void unknown_profiles_of_pages(void)
{
    begin();
    keep();
    for (size_t i = 0; i < UNKNOWN_PROFILES; i++) {
        profile = unknown_profiles[i];
        for (page_length = 15; page_length <= 16; page_length++) {
            NOT_COUNTED(MB_REFUSED_UNKNOWN_PROFILE);
            BUNDLE(0, MB_REFUSED_UNKNOWN_PROFILE, MB_SUCCESSOR_BAD, 0);
            BUNDLE(4, MB_REFUSED_UNKNOWN_PROFILE, MB_SUCCESSOR_BAD, 0);
        }
    }
    CHECK(changed(), 0);
}

/* One thing each that a step and a run refuse in a known profile, other than a damage; by which number. */
enum { SPOILS = 4 };

static uint32_t spoil(size_t which)
{
    switch (which) {
    case 0: page_length = 3; return MB_REFUSED_PAGE_LENGTH;
    case 1: ram_length = 1; return MB_REFUSED_RAM_LENGTH;
    case 2: external_length = 1; return MB_REFUSED_EXTERNAL_LENGTH;
    default: record.place = 6; return MB_REFUSED_UNFIT_PLACE; /* in the page, and not below the count */
    }
}

static void check_unknown_profiles(int line)
{
    for (size_t i = 0; i < UNKNOWN_PROFILES; i++) {
        profile = unknown_profiles[i];
        check_refused(line, MB_REFUSED_UNKNOWN_PROFILE, 0);
    }
}

/* 18 before every other refusal of a step and a run, and where there is no other. */
static void unknown_profiles_of_runs(void)
{
    begin();
    check_unknown_profiles(__LINE__);
    for (size_t which = 0; which < SPOILS; which++) {
        begin();
        REFUSED(spoil(which));
        check_unknown_profiles(__LINE__);
    }
    for (size_t which = 0; which < DAMAGES; which++) {
        begin();
        put_damage(damages[which]);
        REFUSED_AT(damages[which].refusal, refused_at(damages[which]));
        check_unknown_profiles(__LINE__);
    }
}

/* 18 before 255 of bytes that no mb_record has. */
static void unknown_profiles_of_bytes(void)
{
    uint8_t bytes[MB_RECORD_BYTES];
    begin();
    keep();
    memset(bytes, 0xFF, sizeof bytes);
    for (size_t length = 43; length <= 44; length++) {
        profile = profile_at_first;
        BYTES_REFUSED(bytes, length, MB_REFUSED_NO_RECORD, length == 44 ? MB_AT_BASE_KIND : 0);
        for (size_t i = 0; i < UNKNOWN_PROFILES; i++) {
            profile = unknown_profiles[i];
            BYTES_REFUSED(bytes, length, MB_REFUSED_UNKNOWN_PROFILE, 0);
        }
    }
}

/* ---- windows of RAM */

typedef struct { uint32_t start, end; } window;

/* They start above their end, end past RAM, or both. */
static const window wrong_windows[] = {
    {1, 0}, {MB_RAM_BYTES, MB_RAM_BYTES - 1}, {UINT32_MAX, MB_RAM_BYTES}, {0, MB_RAM_BYTES + 1}, {0, UINT32_MAX},
    {0x10000, 0x10004}, {MB_RAM_BYTES + 1, MB_RAM_BYTES + 1}, {UINT32_MAX, MB_RAM_BYTES + 1},
};

enum { WRONG_WINDOWS = sizeof wrong_windows / sizeof wrong_windows[0] };

static void check_wrong_windows(int line, uint32_t code)
{
    for (size_t i = 0; i < WRONG_WINDOWS; i++) {
        set_window(wrong_windows[i].start, wrong_windows[i].end);
        check_refused(line, code, 0);
    }
}

/* 20 where there is no other refusal, before those of the record and its place, and after those of the lengths. */
static void refused_windows(void)
{
    begin();
    check_wrong_windows(__LINE__, MB_REFUSED_WINDOW_BOUNDS);
    for (size_t which = 0; which < SPOILS; which++) {
        uint32_t other;
        begin();
        other = spoil(which);
        check_wrong_windows(__LINE__, other == MB_REFUSED_UNFIT_PLACE ? MB_REFUSED_WINDOW_BOUNDS : other);
    }
    for (size_t which = 0; which < DAMAGES; which++) {
        begin();
        put_damage(damages[which]);
        check_wrong_windows(__LINE__, MB_REFUSED_WINDOW_BOUNDS);
    }
}

/* Empty ones, and those in which no word fits: a page that accesses no RAM runs there, and SP may be outside. */
static void small_windows(void)
{
    const window windows[] = {{0, 0}, {5, 5}, {32768, 32768}, {32767, 32768}, {0, 1}, {7, 9}, {8, 11}};
    for (size_t i = 0; i < sizeof windows / sizeof windows[0]; i++) {
        begin();
        set_window(windows[i].start, windows[i].end);
        STOPS(run(100000), MB_STOP_SERVICE, 0, 0, 4);
        PAGE(0xDFC1, 0xA901, 0x4A00, 0xDF00, 0x1234, 0x5678); /* SP down by a word, a sum with SP, a load from the page */
        record = fresh_by_hand();
        STOPS(run(100000), MB_STOP_SERVICE, 0, 0, 4);
        CHECK(record.sp, 0x17FFC);
        CHECK(record.r[2], 0x56781234);
    }
}

/* The first instruction accesses so many bytes of RAM at an offset: in windows with their edges there, it is run, and in those
 * with an edge a byte further in, it faults. */
static void check_edges(int line, uint32_t at, uint32_t size)
{
    const window inside[] = {{at, at + size}, {0, at + size}, {at, MB_RAM_BYTES}};
    const window outside[] = {{at + 1, at + size}, {at, at + size - 1}, {at + 1, MB_RAM_BYTES}, {0, at + size - 1}, {at, at}};
    const mb_record given = record;
    for (size_t i = 0; i < sizeof outside / sizeof outside[0]; i++) {
        set_window(outside[i].start, outside[i].end);
        check_fault(line, MB_FAULT_OUTSIDE_WINDOW);
    }
    for (size_t i = 0; i < sizeof inside / sizeof inside[0]; i++) {
        set_window(inside[i].start, inside[i].end);
        record = given;
        check_answer(line, step(), MB_ACCEPTED, (mb_stopped){MB_STOP_BUDGET, 0, 0, 0, 1});
    }
}

/* str and ldr by SP, and literal operations 4 and 5, which may be unaligned. */
static void windows_of_the_stack(void)
{
    const struct { uint16_t halfword; uint16_t literal[2]; uint32_t at; } accesses[] = {
        {0x9101, {0, 0}, 104}, {0x9901, {0, 0}, 104}, {0xDF01, {0x0003, 0xC420}, 103}, {0xDF01, {0x0003, 0xC520}, 103},
    };
    for (size_t i = 0; i < sizeof accesses / sizeof accesses[0]; i++) {
        begin();
        PAGE(accesses[i].halfword, 0xDF00, accesses[i].literal[0], accesses[i].literal[1]);
        record.sp = 0x10000 + 100;
        check_edges(__LINE__, accesses[i].at, 4);
        record.place = 0;
        record.sp = 0x18000;
        set_window(0, 0); /* 4 before 7 */
        FAULTS(MB_FAULT_PAST_STACK);
    }
}

/* Loads and stores by the base, of each size; an offset that is no multiple of it. */
static void windows_of_bases(void)
{
    const struct { uint16_t halfword; uint32_t size; } accesses[] = {
        {0xF8C9, 4}, {0xF889, 1}, {0xF8A9, 2}, {0xF8D8, 4}, {0xF8D9, 4}, {0xF898, 1}, {0xF899, 1}, {0xF8B8, 2}, {0xF8B9, 2},
        {0xF998, 1}, {0xF999, 1}, {0xF9B8, 2}, {0xF9B9, 2},
    };
    for (size_t i = 0; i < sizeof accesses / sizeof accesses[0]; i++) {
        begin();
        PAGE(accesses[i].halfword, 0x1003, 0xBF00, 0xDF00); /* r1, at the base + 3 */
        set_base(MB_BASE_RAM, 98);
        check_edges(__LINE__, 101, accesses[i].size);
        record.place = 0;
        set_window(0, 0); /* 2 and 1 before 7 */
        set_base(MB_BASE_RAM, 32768 - accesses[i].size - 2);
        FAULTS(MB_FAULT_PAST_RAM);
        set_base(MB_BASE_NONE, 0);
        FAULTS(MB_FAULT_NO_BASE);
    }
}

/* External data isn't RAM: a load from it is tested as before in any window. */
static void external_load_in_a_window(void)
{
    begin();
    PAGE(0xF8D8, 0x0000, 0xBF00, 0xDF00);
    external_length = 512;
    set_window(0, 0);
    set_base(MB_BASE_EXTERNAL, 252);
    STOPS(step(), MB_STOP_BUDGET, 0, 0, 1);
    CHECK(record.r[0], 0xFCF7F2ED);
    record.place = 0;
    set_base(MB_BASE_EXTERNAL, 253);
    FAULTS(MB_FAULT_OFF_EXTERNAL_PAGE);
}

/* The word at SP grows by one. What it comes to, and all else, is the same whatever stands outside the window, and that stays. */
static void rams_that_agree_inside(void)
{
    mb_record expected;
    uint32_t word;
    begin();
    PAGE(0x9800, 0x1C40, 0x9000, 0xDF00);
    record.sp = 0x10000 + 104;
    set_window(104, 108);
    word = ram_word(104);
    STOPS(run(100000), MB_STOP_SERVICE, 0, 0, 4);
    CHECK(ram_word(104), word + 1);
    CHECK(record.r[0], word + 1);
    expected = record;
    begin();
    PAGE(0x9800, 0x1C40, 0x9000, 0xDF00);
    record.sp = 0x10000 + 104;
    set_window(104, 108);
    for (size_t i = 0; i < sizeof lent.ram; i++)
        lent.ram[i] = (uint8_t)(i - 104 < 4 ? lent.ram[i] : ~lent.ram[i]);
    keep();
    STOPS(run(100000), MB_STOP_SERVICE, 0, 0, 4);
    CHECK(same_record(&record, &expected), true);
    CHECK(ram_word(104), word + 1);
    memcpy(before.ram + 104, lent.ram + 104, 4);
    record = record_before;
    CHECK(changed(), 0);
}

/* Two filters fill their windows from the end down, by turns in one RAM: SP less a word, a store of r0 there, and back. Each is
 * stopped where its window starts, after 24 words. */
static void two_filters_in_one_ram(void)
{
    const window windows[] = {{102, 203}, {203, 300}};
    const uint32_t ends[] = {200, 300}, words[] = {0x11111111, 0x22222222};
    mb_record records[2];
    uint32_t steps[2] = {0, 0};
    begin();
    PAGE(0xDFC1, 0x9000, 0xE7FC, 0xBF00);
    keep();
    for (size_t i = 0; i < 2; i++) {
        records[i] = fresh_by_hand();
        records[i].sp = 0x10000 + ends[i];
        records[i].r[0] = words[i];
        memset(before.ram + ends[i] - 96, (int)(words[i] & 0xFF), 96);
    }
    for (size_t turn = 0; turn < 16; turn++) {
        struct answer a;
        set_window(windows[turn % 2].start, windows[turn % 2].end);
        record = records[turn % 2];
        a = run(10);
        records[turn % 2] = record;
        steps[turn % 2] += a.stopped.steps;
        CHECK(a.code, MB_ACCEPTED);
        CHECK(a.stopped.kind, turn < 14 ? MB_STOP_BUDGET : MB_STOP_FAULT);
        CHECK(a.stopped.value, turn < 14 ? 0 : MB_FAULT_OUTSIDE_WINDOW);
    }
    CHECK(steps[0], 3 * 24 + 1);
    CHECK(steps[1], 3 * 24 + 1);
    record = record_before;
    CHECK(changed(), 0);
}

/* ---- null pointers with length 0 */

static void null_page_and_data(void)
{
    mb_program nothing = mb_program_of(NULL, 0);
    mb_setting on = mb_setting_of(nothing, NULL, 0);
    mb_reading reading = {STALE, STALE};
    mb_base base = {0xAA, STALE};
    uint32_t count = STALE;
    CHECK(mb_count(&nothing, &count), MB_ACCEPTED);
    CHECK(count, 0);
    CHECK(mb_read_bundle(&nothing, 0, &reading), MB_REFUSED_NO_SUCH_BUNDLE);
    CHECK(mb_validate(&on, 0x17FFF, &base), MB_ACCEPTED);
    CHECK(base.kind, MB_BASE_RAM);
    CHECK(base.offset, 0x7FFF);
    CHECK(mb_validate(&on, 0x80000000, &base), MB_ACCEPTED);
    CHECK(base.kind, MB_BASE_NONE);
}

static void null_in_runs(void)
{
    mb_stopped stopped = stale.stopped;
    mb_setting nothing = mb_setting_of(mb_program_of(NULL, 0), NULL, 0), no_data;
    begin();
    no_data = mb_setting_of(program(), NULL, 0);
    CHECK(mb_run(&no_data, lent.ram, ram_length, &record, 10, &stopped), MB_ACCEPTED);
    CHECK(stopped.steps, 4);
    record = fresh_by_hand();
    CHECK(mb_step(&no_data, lent.ram, ram_length, &record, &stopped), MB_ACCEPTED);
    CHECK(stopped.steps, 1);
    CHECK(mb_run(&no_data, NULL, 0, &record, 10, &stopped), MB_REFUSED_RAM_LENGTH);
    CHECK(mb_step(&no_data, NULL, 0, &record, &stopped), MB_REFUSED_RAM_LENGTH);
    CHECK(mb_run(&nothing, lent.ram, ram_length, &record, 10, &stopped), MB_REFUSED_UNFIT_PLACE);
    CHECK(mb_step(&nothing, lent.ram, ram_length, &record, &stopped), MB_REFUSED_UNFIT_PLACE);
    CHECK(stopped.kind, MB_STOP_REFUSED);
}

static void null_rooms(void)
{
    size_t length = SIZE_MAX;
    begin();
    CHECK(mb_store(&record, NULL, 0, NULL), MB_REFUSED_FORM_LENGTH);
    CHECK(mb_load(NULL, 0, &record, NULL), MB_REFUSED_FORM_LENGTH);
    CHECK(mb_pack(NULL, 0, lent.packed, packed_length, &length, NULL), MB_REFUSED_FORM_LENGTH);
    CHECK(mb_pack(NULL, 0, NULL, 0, &length, NULL), MB_REFUSED_FORM_LENGTH);
    CHECK(mb_pack(fresh_bytes, sizeof fresh_bytes, NULL, 0, &length, NULL), MB_REFUSED_ROOM_TOO_SMALL);
    CHECK(length == 0, true);
    CHECK(mb_unpack(NULL, 0, lent.room, room_length, NULL), MB_REFUSED_NOT_GROUPED);
    CHECK(mb_unpack(NULL, 0, NULL, 0, NULL), MB_REFUSED_FORM_LENGTH);
    CHECK(mb_unpack(fresh_short, sizeof fresh_short, NULL, 0, NULL), MB_REFUSED_FORM_LENGTH);
}

/* ---- exits */

static void check_exit(int line, uint32_t low, uint32_t literal, mb_exit_parts expected)
{
    mb_exit_parts parts = mb_exit(low, literal);
    check(line, "kind", parts.kind, expected.kind);
    check(line, "number", parts.number, expected.number);
    check(line, "immediate", parts.immediate, expected.immediate);
    check(line, "address", parts.address, expected.address);
    check(line, "words", parts.words, expected.words);
}

#define EXIT(low, literal, ...) check_exit(__LINE__, (low), (literal), (mb_exit_parts){__VA_ARGS__})

static void exits(void)
{
    EXIT(0x00, 0, MB_EXIT_RETURN, 0, 0, 0, 0);
    EXIT(0x01, 0x7F123454, MB_EXIT_CALL, 0, 0, 0x80123454, 127);
    EXIT(0x7F, 0x01FFFFFD, MB_EXIT_TAIL_CALL, 0, 0, 0x80FFFFFC, 1);
    EXIT(0x05, 0x9FFFFFFE, MB_EXIT_SYSCALL, 8191, 0x7FFF, 0, 0);
    EXIT(0x05, 0x80070003, MB_EXIT_TAIL_SYSCALL, 7, 1, 0, 0);
    EXIT(0x05, 0xC0123456, MB_EXIT_LONG_BRANCH, 0, 0, 0x123456, 0);
    EXIT(0x05, 0xE0123456, MB_EXIT_LONG_BRANCH, 0, 0, 0x80123456, 0);
    EXIT(0xBF, 0, MB_EXIT_DIRECT_SYSCALL, 63, 0, 0, 0);
    EXIT(0xE8, 0, MB_EXIT_BREAKPOINT, 0, 0, 0, 0);
    EXIT(0xF7, 0, MB_EXIT_CALL_REGISTER, 7, 0, 0, 0);
    EXIT(0xFF, 0, MB_EXIT_TAIL_CALL_REGISTER, 7, 0, 0, 0);
}

static void no_exits(void)
{
    EXIT(0x01, 0x7F123456, MB_EXIT_NONE, 0, 0, 0, 0); /* bit 1 of a call's literal */
    EXIT(0x01, 0xA0000000, MB_EXIT_NONE, 0, 0, 0, 0); /* syscall 8192 */
    EXIT(0x01, 0xC1123456, MB_EXIT_NONE, 0, 0, 0, 0); /* preload */
    EXIT(0xC0, 0, MB_EXIT_NONE, 0, 0, 0, 0);
    EXIT(0xE7, 0, MB_EXIT_NONE, 0, 0, 0, 0);
    EXIT(0xEF, 0, MB_EXIT_NONE, 0, 0, 0, 0);
    EXIT(0x100, 0, MB_EXIT_NONE, 0, 0, 0, 0);
    EXIT(0xFFFFFFFF, 0, MB_EXIT_NONE, 0, 0, 0, 0);
    EXIT(0x80, 0x7F123454, MB_EXIT_DIRECT_SYSCALL, 0, 0, 0, 0); /* the literal counts for 01 to 7F */
}

/* Only a stop at a service is decoded: value 1 with the literal 0 would be a call. */
static void exits_of_stops(void)
{
    mb_stopped stopped = mb_nothing_run();
    stopped.value = 1;
    for (stopped.kind = 0; stopped.kind < 300; stopped.kind++) {
        bool at_service = stopped.kind == MB_STOP_SERVICE || stopped.kind == MB_STOP_SERVICE_BY_LITERAL;
        CHECK(mb_exit_of(&stopped).kind, at_service ? 2 : 0);
    }
}

/* ---- all tests */

typedef void (*test)(void);

/* Pages with an encoding that the small profile lacks. */
static const test of_the_full_profile[] = {
    counts, movw, word_store, earlier_stores_stay, base_by_service, external_load, other_faults, refused_places,
    windows_of_bases, external_load_in_a_window,
};

static const test of_both_profiles[] = {
    initialisers, count_of_a_full_page, count_refused, bundles, bases, base_at_the_end,
    stored_and_read_back, out_of_range, out_of_range_twice, not_read_back, form_length,
    short_forms, rooms_of_short_forms, short_registers, short_sps, short_bases, not_unpacked, not_unpacked_twice, most_groups,
    not_grouped, not_grouped_and_excess, cut_off_or_followed, offsets_by_kind, lengths_and_short_forms,
    raw_lengths, raw_flags, raw_flags_and_fields, printed_run, budget_zero, slices, other_stops, blt,
    refused_lengths, refused_records, records_refused_twice, fit_records, order,
    counts_of_syscalls, places_of_syscalls, places_behind_syscalls, other_services,
    counts_of_profiles, bundles_of_profiles, places_of_profiles,
    unknown_profiles_of_pages, unknown_profiles_of_runs, unknown_profiles_of_bytes,
    refused_windows, small_windows, windows_of_the_stack, rams_that_agree_inside, two_filters_in_one_ram,
    null_page_and_data, null_in_runs, null_rooms, exits, no_exits, exits_of_stops,
};

/* Pages without direct syscalls, as most tests have, answer the same whatever the set. */
static void pass(const test *tests, size_t number, uint32_t begun_with)
{
    const uint64_t sets[] = {0, ALL};
    profile_at_first = begun_with;
    for (size_t i = 0; i < 2 * number; i++) {
        never_return_at_first = sets[i % 2];
        tests[i / 2]();
    }
}

#define PASS(tests, begun_with) pass((tests), sizeof(tests) / sizeof(tests)[0], (begun_with))

int main(void)
{
    PASS(of_the_full_profile, MB_PROFILE_FULL);
    PASS(of_both_profiles, MB_PROFILE_FULL);
    PASS(of_both_profiles, MB_PROFILE_SMALL);
    return outcome("host.c");
}
