/* The bytes of a record, for records made from a seed: held to docs/MACHINE.md's table "The stored form" by a writer of
 * this file's own, and to what the proved library reads from these bytes and writes to them. So is the position of the
 * first field out of range. */
#include "check.h"
#include "marshbodkin.h"
#include "records.h"

#include <string.h>

enum { RECORDS = 20000, EXTERNAL_BYTES = 1024, LAST_PLACE = 123 };

/* ---- numbers from a seed (xorshift) */

static uint64_t seed = 0x9E3779B97F4A7C15u;

static uint32_t random_word(void)
{
    seed ^= seed << 13;
    seed ^= seed >> 7;
    seed ^= seed << 17;
    return (uint32_t)(seed >> 32);
}

static uint32_t random_below(uint32_t limit) { return random_word() % limit; }
static bool random_bit(void) { return random_below(2) == 1; }

/* ---- records */

/* Whatever a record's fields can hold, fit or not. */
static mb_record any_record(void)
{
    mb_record record;
    for (size_t i = 0; i < 8; i++)
        record.r[i] = random_word();
    record.sp = random_word();
    record.base.kind = (uint8_t)random_word();
    record.base.offset = random_word();
    record.place = (uint16_t)random_word();
    record.n = random_bit();
    record.z = random_bit();
    record.c = random_bit();
    record.v = random_bit();
    return record;
}

static mb_base fit_base(void)
{
    mb_base base;
    base.kind = (uint8_t)random_below(3);
    base.offset = base.kind == MB_BASE_NONE ? 0 : base.kind == MB_BASE_RAM ? random_below(1u << 20) : random_below(EXTERNAL_BYTES);
    return base;
}

/* A fit record, at a place from 0 to LAST_PLACE. */
static mb_record fit_record(void)
{
    mb_record record = any_record();
    record.sp = 0x10000 + 4 * random_below(0x2001);
    record.base = fit_base();
    record.place = (uint16_t)random_below(LAST_PLACE + 1);
    return record;
}

/* ---- the table, byte by byte */

static uint8_t byte_of(uint32_t value, unsigned which) { return (uint8_t)(value >> (8 * which) & 0xFF); }

static void write_by_table(const mb_record *record, uint8_t *bytes)
{
    for (unsigned at = 0; at < 32; at++)
        bytes[at] = byte_of(record->r[at / 4], at % 4);
    bytes[32] = byte_of(record->sp, 0);
    bytes[33] = byte_of(record->sp, 1);
    bytes[34] = byte_of(record->sp, 2);
    bytes[35] = byte_of(record->sp, 3);
    bytes[36] = record->base.kind;
    bytes[37] = byte_of(record->base.offset, 0);
    bytes[38] = byte_of(record->base.offset, 1);
    bytes[39] = byte_of(record->base.offset, 2);
    bytes[40] = byte_of(record->base.offset, 3);
    bytes[41] = byte_of(record->place, 0);
    bytes[42] = byte_of(record->place, 1);
    bytes[43] = (uint8_t)(8 * record->n + 4 * record->z + 2 * record->c + record->v);
}

/* Both ways, with nothing written past the 44 bytes. */
static void bytes_by_the_table(void)
{
    uint8_t bytes[MB_RECORD_BYTES + 1], expected[MB_RECORD_BYTES + 1];
    mb_record record = any_record(), back = any_record();
    bytes[MB_RECORD_BYTES] = expected[MB_RECORD_BYTES] = 0x5A;
    write_by_table(&record, expected);
    mb_internal_to_bytes(&record, bytes);
    CHECK(memcmp(bytes, expected, sizeof bytes) == 0, true);
    mb_internal_from_bytes(expected, &back);
    CHECK(same_record(&back, &record), true);
}

/* A record that is in range is stored as the table says, and read back. */
static void stored_by_the_table(void)
{
    uint8_t room[MB_RECORD_BYTES], expected[MB_RECORD_BYTES];
    mb_record record = fit_record(), loaded = any_record();
    write_by_table(&record, expected);
    CHECK(mb_store(&record, room, sizeof room, NULL), MB_ACCEPTED);
    CHECK(memcmp(room, expected, sizeof room) == 0, true);
    CHECK(mb_load(expected, sizeof expected, &loaded, NULL), MB_ACCEPTED);
    CHECK(same_record(&loaded, &record), true);
}

/* ---- where the table says that a record is out of range */

/* Below RAM, above it, or in it and no multiple of 4. */
static uint32_t wrong_sp(void)
{
    switch (random_below(3)) {
    case 0: return random_below(0x10000);
    case 1: return 0x18001 + (random_word() >> (1 + random_below(31)));
    default: return 0x10000 + 4 * random_below(0x2000) + 1 + random_below(3);
    }
}

/* Each field out of range or left as it is, by chance. */
static mb_record spoilt_record(void)
{
    mb_record record = fit_record();
    if (random_bit())
        record.sp = wrong_sp();
    if (random_bit())
        record.base.kind = (uint8_t)random_below(5);
    if (random_bit())
        record.base.offset = random_word() >> random_below(32);
    if (random_bit())
        record.place = (uint16_t)random_below(256);
    return record;
}

static bool offset_in_range(mb_base base)
{
    switch (base.kind) {
    case MB_BASE_NONE: return base.offset == 0;
    case MB_BASE_RAM: return base.offset <= 0xFFFFF;
    default: return base.offset <= 0xFFFFFF;
    }
}

/* By the table, from its last row up; 0 if all is in range. */
static uint32_t first_failing(const mb_record *record, uint8_t flags)
{
    uint32_t position = flags > 15 ? 43 : 0;
    position = record->place > 127 ? 41 : position;
    position = offset_in_range(record->base) ? position : 37;
    position = record->base.kind > 2 ? 36 : position;
    return record->sp < 0x10000 || record->sp > 0x18000 || record->sp % 4 != 0 ? 32 : position;
}

static void told_by_the_table(void)
{
    uint8_t bytes[MB_RECORD_BYTES], room[MB_RECORD_BYTES];
    mb_record record = spoilt_record(), loaded;
    mb_refused refused = {99, 99};
    uint32_t position = first_failing(&record, 0);
    CHECK(mb_store(&record, room, sizeof room, &refused), position == 0 ? MB_ACCEPTED : MB_REFUSED_FORM_RANGE);
    CHECK(refused.position, position);
    write_by_table(&record, bytes);
    bytes[43] = (uint8_t)random_below(32);
    position = first_failing(&record, bytes[43]);
    CHECK(mb_load(bytes, sizeof bytes, &loaded, &refused), position == 0 ? MB_ACCEPTED : MB_REFUSED_FORM_RANGE);
    CHECK(refused.position, position);
}

/* ---- one step of the proved machine, by docs/MACHINE.md's rules: every part of a record is read by some step and written by some */

static uint8_t page[MB_PAGE_MOST], ram[MB_RAM_BYTES], external[EXTERNAL_BYTES];

static void fill_areas(void)
{
    for (size_t i = 0; i < sizeof ram; i++)
        ram[i] = (uint8_t)random_word();
    for (size_t i = 0; i < sizeof external; i++)
        external[i] = (uint8_t)random_word();
}

/* A page of nops with a return at its end and the instruction at a place. All of it is counted if the instruction goes
 * on, or branches two bundles further at most. */
static void plant(uint16_t place, uint32_t first, uint32_t second)
{
    for (size_t at = 0; at < 127; at++)
        put_halfword(page, at, 0xBF00);
    put_halfword(page, 127, 0xDF00);
    put_halfword(page, place, first);
    put_halfword(page, place + 1u, second);
}

/* The step's stop, fault or none, and the record after it. */
static void check_step(int line, mb_record record, mb_record expected, uint32_t fault)
{
    mb_setting setting = mb_setting_of(mb_program_of(page, sizeof page), external, sizeof external);
    mb_stopped stopped = mb_nothing_run();
    check(line, "code", mb_step(&setting, ram, sizeof ram, &record, &stopped), MB_ACCEPTED);
    check(line, "kind", stopped.kind, fault == 0 ? MB_STOP_BUDGET : MB_STOP_FAULT);
    check(line, "value", stopped.value, fault);
    check(line, "same record", same_record(&record, &expected), true);
}

#define STEP(record, expected) check_step(__LINE__, (record), (expected), 0)
#define FAULTS(record, fault) check_step(__LINE__, (record), (record), (fault))

/* The record behind an instruction of so many halfwords that writes nothing else. */
static mb_record behind(mb_record record, uint16_t length)
{
    record.place = (uint16_t)(record.place + length);
    return record;
}

static void registers_by_mov(void)
{
    mb_record record = fit_record(), expected = behind(record, 1);
    uint32_t d = random_below(8), m = random_below(8);
    plant(record.place, 0x4600 + 8 * m + d, 0xBF00);
    expected.r[d] = record.r[m];
    STEP(record, expected);
}

static void sp_by_add(void)
{
    mb_record record = fit_record(), expected = behind(record, 1);
    uint32_t d = random_below(8);
    plant(record.place, 0xA800 + 256 * d, 0xBF00);
    expected.r[d] = record.sp;
    STEP(record, expected);
}

/* Services C0 to DF lower SP by words, and leave the base none. */
static void sp_by_service(void)
{
    mb_record record = fit_record(), expected = behind(record, 1);
    uint32_t words = random_below(32);
    if (random_bit())
        record.sp = 0x10000 + 4 * random_below(32);
    plant(record.place, 0xDFC0 + words, 0xBF00);
    if (record.sp < 0x10000 + 4 * words) {
        FAULTS(record, MB_FAULT_LOW_STACK);
        return;
    }
    expected.sp = record.sp - 4 * words;
    expected.base.kind = MB_BASE_NONE;
    expected.base.offset = 0;
    STEP(record, expected);
}

/* eq, cs, mi, vs, each of which looks at one flag, two bundles on. */
static void flags_by_branch(void)
{
    mb_record record = fit_record(), expected = behind(record, 1);
    const bool flags[] = {record.z, record.c, record.n, record.v};
    uint32_t which = random_below(4), odd = record.place % 2;
    plant(record.place, 0xD000 + 512 * which + (odd ? 1 : 2), 0xBF00);
    if (flags[which])
        expected.place = (uint16_t)(record.place - odd + 4);
    STEP(record, expected);
}

/* cmp n, #imm8 writes all four. */
static void flags_by_cmp(void)
{
    mb_record record = fit_record(), expected = behind(record, 1);
    uint32_t n = random_below(8), constant = random_below(256), result;
    if (random_bit())
        record.r[n] = expected.r[n] = random_below(256) + 0x80000000u * random_below(2);
    result = record.r[n] - constant;
    plant(record.place, 0x2800 + 256 * n + constant, 0xBF00);
    expected.n = result >= 0x80000000u;
    expected.z = result == 0;
    expected.c = record.r[n] >= constant;
    expected.v = record.r[n] >= 0x80000000u && result < 0x80000000u;
    STEP(record, expected);
}

/* validate by a register: RAM, external or none. */
static void base_by_validate(void)
{
    mb_record record = fit_record(), expected = behind(record, 1);
    uint32_t n = random_below(8);
    if (random_bit())
        record.r[n] = expected.r[n] = 0x80000000u + random_below(2 * EXTERNAL_BYTES);
    plant(record.place, 0xDFE0 + n, 0xBF00);
    expected.base.kind = MB_BASE_RAM;
    expected.base.offset = (record.r[n] - 0x10000) % (1u << 20);
    if (record.r[n] >= 0x80000000u) {
        bool inside = record.r[n] - 0x80000000u < EXTERNAL_BYTES;
        expected.base.kind = inside ? MB_BASE_EXTERNAL : MB_BASE_NONE;
        expected.base.offset = inside ? record.r[n] - 0x80000000u : 0;
    }
    STEP(record, expected);
}

static uint32_t load_fault(mb_base base)
{
    switch (base.kind) {
    case MB_BASE_RAM: return base.offset > MB_RAM_BYTES - 4 ? MB_FAULT_PAST_RAM : 0;
    case MB_BASE_EXTERNAL: return base.offset % 256 > 252 ? MB_FAULT_OFF_EXTERNAL_PAGE : 0;
    default: return MB_FAULT_NO_BASE;
    }
}

/* ldr t, [r8, #0]: the word that the base is at. */
static void base_by_load(void)
{
    mb_record record = fit_record(), expected;
    uint32_t t = random_below(8), fault;
    const uint8_t *bytes;
    record.place &= 0xFFFE;
    if (record.base.kind == MB_BASE_RAM && random_bit())
        record.base.offset = random_below(MB_RAM_BYTES + 4);
    plant(record.place, 0xF8D8, 4096 * t);
    fault = load_fault(record.base);
    if (fault != 0) {
        FAULTS(record, fault);
        return;
    }
    bytes = (record.base.kind == MB_BASE_RAM ? ram : external) + record.base.offset;
    expected = behind(record, 2);
    expected.r[t] = bytes[0] + 256u * bytes[1] + 65536u * bytes[2] + 16777216u * bytes[3];
    STEP(record, expected);
}

int main(void)
{
    void (*const tests[])(void) = {
        bytes_by_the_table, stored_by_the_table, told_by_the_table, registers_by_mov, sp_by_add, sp_by_service,
        flags_by_branch, flags_by_cmp, base_by_validate, base_by_load,
    };
    fill_areas();
    for (int i = 0; i < RECORDS; i++)
        tests[i % (int)(sizeof tests / sizeof tests[0])]();
    return outcome("bytes.c");
}
