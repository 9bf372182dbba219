/* Marshbodkin for a host in C99 or C++11. Link with libmarshbodkin.a.
 *
 * docs/MACHINE.md is the machine. "01" is the build paper and "02" that of the
 * change requests; their words and numbers are used there and here.
 *
 * What a call that can be refused answers: 0 (accepted) or the number of a
 * refusal, one of "Answers" below. The rest it writes into what it is lent for
 * it. A refused call writes an empty result there (count 0, no base, length 0, a
 * stop of kind MB_STOP_REFUSED), and leaves record, RAM, room, image and index as
 * they were.
 *
 * What the caller owes, in every call:
 * - an area of bytes is as long as its length says; it may be null if that is 0;
 * - no other pointer is null, but that to an mb_refused;
 * - what is lent stays valid during the call;
 * - what the call may write overlaps nothing else that it is lent;
 * - nothing else writes what is lent, or reads what the call may write, meanwhile.
 *
 * What is guaranteed of the archive:
 * - it is reentrant: nothing global or static is ever written, so threads may
 *   call at once, and share what is only read (page, external data, in a run image
 *   and index);
 * - it uses no heap, and at most MB_STACK_BYTES of stack in a call (measured);
 * - it calls nothing outside itself, not even the C library;
 * - it is for x86-64 with the System V calling convention.
 *
 * In a series of steps and runs, hand each call the same setting, in an image the
 * same page number, and record and RAM exactly as the call before left them: what is
 * proved of a series is proved of such. A record, a setting or a page number that the
 * host changes, or a page that it replaces, starts a new series.
 */
#ifndef MARSHBODKIN_H
#define MARSHBODKIN_H

#include <stddef.h>
#include <stdint.h>
#ifndef __cplusplus
#include <stdbool.h>
#endif

/* The version of this header, which is for the archive of the same version. Hold
 * it against mb_version() before any other call: the archive of another version
 * takes other arguments, and the linker doesn't see it.
 *
 * A host of 0.7 is compiled anew, and its text stays: none of its calls changed, none of
 * their structs and none of their answers. New are images: mb_image, mb_image_setting
 * and four calls, mb_image_build, mb_image_replace, mb_image_run and mb_image_step. These
 * alone answer with 12, 13, 14 and 21; and from mb_image_replace 1 says that the page
 * isn't MB_IMAGE_PAGE_BYTES. MB_STACK_BYTES was 1024: a run takes more stack. */
#define MB_VERSION_MAJOR 0
#define MB_VERSION_MINOR 8
#define MB_VERSION_PATCH 0
#define MB_VERSION (65536u * MB_VERSION_MAJOR + 256u * MB_VERSION_MINOR + MB_VERSION_PATCH)

#ifdef __cplusplus
extern "C" {
#endif

/* ---- Numbers */

/* Sizes in bytes, but for the pages of an image. */
enum {
    MB_RECORD_BYTES = 44,        /* a stored record */
    MB_SHORT_LEAST = 12,         /* a stored record in the short form: from this .. */
    MB_SHORT_MOST = 49,          /* .. to this */
    MB_RAM_BYTES = 32768,
    MB_BUNDLE_BYTES = 4,
    MB_PAGE_MOST = 256,          /* and whole bundles */
    MB_IMAGE_PAGE_BYTES = 256,   /* each page of an image */
    MB_IMAGE_PAGES_MOST = 4096,  /* pages of an image, and at least one */
    MB_EXTERNAL_PAGE_BYTES = 256,
    MB_EXTERNAL_MOST = 16777216, /* and whole external pages */
    MB_STACK_BYTES = 2048        /* the most that a call of the archive takes */
};

/* Where RAM and external data begin, as addresses. */
#define MB_RAM_START 0x10000u
#define MB_EXTERNAL_START 0x80000000u

/* Answers: 0, or a refusal's number. Each call below names those that it tests, in their order. */
enum {
    MB_ACCEPTED = 0,
    MB_REFUSED_PAGE_LENGTH = 1,        /* in mb_image_replace: not MB_IMAGE_PAGE_BYTES */
    MB_REFUSED_RAM_LENGTH = 2,
    MB_REFUSED_EXTERNAL_LENGTH = 3,
    MB_REFUSED_UNFIT_PLACE = 5,
    MB_REFUSED_FORM_LENGTH = 6,
    MB_REFUSED_FORM_RANGE = 7,         /* with the position of the field */
    MB_REFUSED_NO_SUCH_BUNDLE = 8,
    MB_REFUSED_NOT_GROUPED = 9,        /* of a short form */
    MB_REFUSED_ROOM_TOO_SMALL = 10,    /* for what is to be written */
    MB_REFUSED_IMAGE_LENGTH = 12,      /* not 1 to 4096 pages of 256 bytes */
    MB_REFUSED_NO_SUCH_PAGE = 13,
    MB_REFUSED_INDEX_LENGTH = 14,      /* not one byte a page */
    MB_REFUSED_UNKNOWN_PROFILE = 18,
    MB_REFUSED_WINDOW_BOUNDS = 20,     /* starts above its end or ends above 32768 */
    MB_REFUSED_WRONG_INDEX = 21,       /* a byte of it isn't its page's count */
    MB_REFUSED_SP_BOUNDS = 41,         /* below 0x10000 or above 0x18000 */
    MB_REFUSED_SP_ALIGNMENT = 42,      /* no multiple of 4 */
    MB_REFUSED_RAM_OFFSET = 43,        /* 2^20 or more */
    MB_REFUSED_EXTERNAL_OFFSET = 44,   /* not below the external data's length */
    /* The library's own, of a step and a run: a base kind above 2 (at position
     * MB_AT_BASE_KIND), or an offset with MB_BASE_NONE (at MB_AT_BASE_OFFSET). It
     * stands after 20, before 41. */
    MB_REFUSED_NO_RECORD = 255
};

/* Positions: where the fields of a record begin in its 44 bytes. With 7 and 255 a
 * call tells that of the first field that fails. r0 to r7 fail in mb_unpack alone,
 * by a number of 2^32 or more. So with 7 the position 0 is r0; with any other answer
 * it is what the call gives where it tells no field. */
enum {
    MB_AT_R0 = 0, /* r1 to r7 every four bytes */
    MB_AT_SP = 32,
    MB_AT_BASE_KIND = 36,
    MB_AT_BASE_OFFSET = 37,
    MB_AT_PLACE = 41,
    MB_AT_FLAGS = 43 /* 8N + 4Z + 2C + V */
};

/* Profiles: which of the listed encodings there are. Any other number is refused (18). */
enum {
    MB_PROFILE_FULL = 0, /* all of them */
    MB_PROFILE_SMALL = 1 /* an ARMv6-M core: none of 32 bits, no cbz, no cbnz */
};

/* What the reader says of a bundle. */
enum { MB_SUCCESSOR_BAD = 0, MB_SUCCESSOR_NOTHING = 1, MB_SUCCESSOR_LARGEST = 2 };

/* Base kinds. */
enum { MB_BASE_NONE = 0, MB_BASE_RAM = 1, MB_BASE_EXTERNAL = 2 };

/* Why a step or a run stopped. */
enum {
    MB_STOP_BUDGET = 0,
    MB_STOP_SERVICE = 1,            /* value: low byte */
    MB_STOP_SERVICE_BY_LITERAL = 2, /* value: low byte; literal: the word */
    MB_STOP_FAULT = 3,              /* value: one of MB_FAULT_* */
    MB_STOP_UNLISTED = 4,           /* proved never to come */
    MB_STOP_REFUSED = 5             /* value: what the call answers; position with 255 */
};

/* Faults: 01's, and that of a window. */
enum {
    MB_FAULT_NO_BASE = 1,           /* or external base where RAM is needed */
    MB_FAULT_PAST_RAM = 2,
    MB_FAULT_OFF_EXTERNAL_PAGE = 3,
    MB_FAULT_PAST_STACK = 4,        /* stack access past 0x18000 */
    MB_FAULT_LOW_STACK = 5,         /* SP below 0x10000 */
    MB_FAULT_PAST_PAGE = 6,         /* literal load past the page */
    MB_FAULT_OUTSIDE_WINDOW = 7     /* access to RAM outside the window */
};

/* What a service exit asks of the host, and the parts that say more of it. */
enum {
    MB_EXIT_NONE = 0,               /* no exit, or a bad service */
    MB_EXIT_RETURN = 1,
    MB_EXIT_CALL = 2,               /* address, words */
    MB_EXIT_TAIL_CALL = 3,          /* address, words */
    MB_EXIT_SYSCALL = 4,            /* number, immediate */
    MB_EXIT_TAIL_SYSCALL = 5,       /* number, immediate */
    MB_EXIT_LONG_BRANCH = 6,        /* address */
    MB_EXIT_DIRECT_SYSCALL = 7,     /* number: 0 to 63, its bit in never_return */
    MB_EXIT_BREAKPOINT = 8,
    MB_EXIT_CALL_REGISTER = 9,      /* number: of the register */
    MB_EXIT_TAIL_CALL_REGISTER = 10 /* number: of the register */
    /* In the register stands such a word as a call's literal, of which bits 31,
     * 1 and 0 are ignored: mb_exit(1, word & 0x7FFFFFFC) has address and words. */
};

/* ---- The proved calls
 *
 * The archive's functions as they are proved, over bytes and numbers, with a
 * record as the 44 bytes of docs/MACHINE.md's stored form, never_return and
 * profile as mb_program and mb_image have them, and the window as mb_setting has it.
 * No pointer may be null, not even where the length is 0. A host uses the calls
 * further below, which are over these. */

uint32_t mb_raw_version(void);

uint32_t mb_raw_count(const uint8_t *page, size_t page_length, uint64_t never_return,
                      uint32_t profile, uint32_t *count);

uint32_t mb_raw_read_bundle(const uint8_t *page, size_t page_length, uint64_t never_return,
                            uint32_t profile, uint32_t k, uint32_t *kind, uint32_t *largest);

uint32_t mb_raw_validate(uint32_t v, const uint8_t *external, size_t external_length,
                         uint32_t *kind, uint32_t *offset);

/* Refused (6): the length isn't 44. */
uint32_t mb_raw_fresh(uint8_t *record, size_t record_length);

/* This call and the five below write *position whatever they answer: with 7 and
 * 255 that of the first field that fails, else 0, with 255 too where the bytes
 * aren't 44. Refused (6, 7), as mb_store and mb_load; the record's length is tested
 * too (6). */
uint32_t mb_raw_store(const uint8_t *record, size_t record_length,
                      uint8_t *room, size_t room_length, uint32_t *position);

uint32_t mb_raw_load(const uint8_t *stored, size_t stored_length,
                     uint8_t *record, size_t record_length, uint32_t *position);

/* Refused (6, 7, 10), as mb_pack: *length is 0. */
uint32_t mb_raw_pack(const uint8_t *stored, size_t stored_length,
                     uint8_t *room, size_t room_length, size_t *length, uint32_t *position);

/* Refused (6, 9, 7), as mb_unpack. */
uint32_t mb_raw_unpack(const uint8_t *packed, size_t packed_length,
                       uint8_t *room, size_t room_length, uint32_t *position);

/* The record crosses without the stored form's range tests, so that one that
 * isn't fit is refused by 41 to 44 or 5. Bytes that hold no record (255) are not 44
 * (position 0), or have a base kind above 2 (36), an offset though the kind is none
 * (37), or flags above 15 (43). */
uint32_t mb_raw_run(const uint8_t *page, size_t page_length, uint64_t never_return,
                    uint32_t profile, uint8_t *ram, size_t ram_length,
                    const uint8_t *external, size_t external_length,
                    uint32_t window_start, uint32_t window_end,
                    uint8_t *record, size_t record_length, uint32_t budget,
                    uint32_t *kind, uint32_t *value, uint32_t *literal,
                    uint32_t *position, uint32_t *steps);

uint32_t mb_raw_step(const uint8_t *page, size_t page_length, uint64_t never_return,
                     uint32_t profile, uint8_t *ram, size_t ram_length,
                     const uint8_t *external, size_t external_length,
                     uint32_t window_start, uint32_t window_end,
                     uint8_t *record, size_t record_length,
                     uint32_t *kind, uint32_t *value, uint32_t *literal,
                     uint32_t *position, uint32_t *steps);

uint32_t mb_raw_image_build(const uint8_t *image, size_t image_length,
                            uint8_t *index, size_t index_length,
                            uint64_t never_return, uint32_t profile);

uint32_t mb_raw_image_replace(uint8_t *image, size_t image_length,
                              uint8_t *index, size_t index_length,
                              uint64_t never_return, uint32_t profile, uint32_t number,
                              const uint8_t *page, size_t page_length);

/* This and the next take the record, and write the five numbers, as mb_raw_run. */
uint32_t mb_raw_image_run(const uint8_t *image, size_t image_length,
                          const uint8_t *index, size_t index_length,
                          uint64_t never_return, uint32_t profile, uint32_t number,
                          uint8_t *ram, size_t ram_length,
                          const uint8_t *external, size_t external_length,
                          uint32_t window_start, uint32_t window_end,
                          uint8_t *record, size_t record_length, uint32_t budget,
                          uint32_t *kind, uint32_t *value, uint32_t *literal,
                          uint32_t *position, uint32_t *steps);

uint32_t mb_raw_image_step(const uint8_t *image, size_t image_length,
                           const uint8_t *index, size_t index_length,
                           uint64_t never_return, uint32_t profile, uint32_t number,
                           uint8_t *ram, size_t ram_length,
                           const uint8_t *external, size_t external_length,
                           uint32_t window_start, uint32_t window_end,
                           uint8_t *record, size_t record_length,
                           uint32_t *kind, uint32_t *value, uint32_t *literal,
                           uint32_t *position, uint32_t *steps);

void mb_raw_exit(uint32_t low, uint32_t literal,
                 uint32_t *kind, uint32_t *number, uint32_t *immediate,
                 uint32_t *address, uint32_t *words);

/* ---- What a host keeps
 *
 * Fields will be added. So make these by their initialisers, never field by field:
 * what those give then means what it means now. */

/* A filter. By mb_program_of, after which the host may set never_return and
 * profile: before mb_setting_of, which copies the program, or in the setting's own
 * program. */
typedef struct {
    const uint8_t *page;
    size_t page_length;
    /* The direct syscalls that never return, such as an abort: mb_syscall_bit(n) for
     * syscall n, several joined by |. Each of them ends the flow, as a return does,
     * and a run that stops at one keeps its place: called again as it is, it stops
     * there again, for ever. 0 as initialised: all return. */
    uint64_t never_return;
    /* The processor that the filter is for, one of MB_PROFILE_*. An encoding that the
     * profile lacks makes its bundle bad. MB_PROFILE_FULL as initialised. */
    uint32_t profile;
} mb_program;

/* What a filter runs on, RAM aside. By mb_setting_of, after which the host may set the
 * window. */
typedef struct {
    mb_program program;
    const uint8_t *external;
    size_t external_length;
    /* The window: the RAM offsets that the filter may use, from the start to below the
     * end. 0 and MB_RAM_BYTES as initialised; an empty one is allowed. An access to RAM
     * that isn't wholly inside is MB_FAULT_OUTSIDE_WINDOW; SP itself isn't held to it.
     * A run neither reads nor writes RAM outside its window: those bytes stay, and runs
     * whose RAMs agree inside are equal in stop, steps, record and the window's bytes.
     * So filters whose windows don't overlap may share one RAM, one after the other. */
    uint32_t window_start, window_end;
} mb_setting;

/* An image, as 02 calls a filter of many pages: its pages, and beside them what 02 calls
 * the index, one byte a page, its count. By mb_image_of, after which the host may set
 * never_return and profile, as in an mb_program: before mb_image_build, since the index is
 * right only under the set and the profile that it was built with, and before
 * mb_image_setting_of, which copies the struct, though not the bytes. */
typedef struct {
    uint8_t *image; /* 1 to MB_IMAGE_PAGES_MOST pages of MB_IMAGE_PAGE_BYTES, one after the other */
    size_t image_length; /* in bytes */
    uint8_t *index;
    size_t index_length; /* the number of pages */
    uint64_t never_return;
    uint32_t profile;
} mb_image;

/* What a filter in a page of an image runs on, RAM aside. By mb_image_setting_of, after
 * which the host may set the window, as in an mb_setting. */
typedef struct {
    mb_image image;
    const uint8_t *external;
    size_t external_length;
    uint32_t window_start, window_end;
} mb_image_setting;

/* The base of a record, and what validation gives. */
typedef struct {
    uint8_t kind;    /* one of MB_BASE_* */
    uint32_t offset; /* 0 for none */
} mb_base;

/* A record. By mb_fresh, and then changed as the host likes. */
typedef struct {
    uint32_t r[8];
    uint32_t sp;
    mb_base base;
    uint16_t place; /* of a halfword: twice the bundle's number, for its first */
    bool n, z, c, v;
} mb_record;

/* What a step or a run came to. By mb_nothing_run. */
typedef struct {
    uint32_t kind; /* one of MB_STOP_* */
    uint32_t value, literal; /* 0 where the kind carries none */
    uint32_t position; /* one of MB_AT_* where the answer is 255, else 0 */
    uint32_t steps;
} mb_stopped;

/* ---- What calls give besides; a call writes all of it. */

typedef struct {
    uint32_t kind;    /* one of MB_SUCCESSOR_* */
    uint32_t largest; /* the largest successor, 0 if there is none */
} mb_reading;

/* What a store, load, pack or unpack says: the number that it answers, and where in
 * the record. */
typedef struct {
    uint32_t number;
    uint32_t position; /* where the number is 7 a field's, MB_AT_R0 too; else 0 */
} mb_refused;

/* A part that the kind doesn't name is 0. */
typedef struct {
    uint32_t kind; /* one of MB_EXIT_* */
    uint32_t number;
    uint32_t immediate;
    uint32_t address;
    uint32_t words; /* that SP is to be lowered by */
} mb_exit_parts;

/* ---- Internal: a host has no use for what begins with mb_internal. */

/* What is lent for an area to be read, and for one to be written: for one of
 * length 0, which may be null, a byte of the call's own. */
static inline const uint8_t *mb_internal_read(const uint8_t *area, size_t length, const uint8_t *own)
{
    return length == 0 ? own : area;
}

static inline uint8_t *mb_internal_written(uint8_t *area, size_t length, uint8_t *own)
{
    return length == 0 ? own : area;
}

static inline void mb_internal_put(uint8_t *bytes, size_t width, uint32_t value)
{
    for (size_t i = 0; i < width; i++)
        bytes[i] = (uint8_t)(value >> (8 * i));
}

static inline uint32_t mb_internal_get(const uint8_t *bytes, size_t width)
{
    uint32_t value = 0;
    for (size_t i = 0; i < width; i++)
        value |= (uint32_t)bytes[i] << (8 * i);
    return value;
}

static inline void mb_internal_to_bytes(const mb_record *record, uint8_t *bytes)
{
    uint32_t flags = (record->n ? 8u : 0u) | (record->z ? 4u : 0u) | (record->c ? 2u : 0u) | (record->v ? 1u : 0u);
    for (size_t i = 0; i < 8; i++)
        mb_internal_put(bytes + MB_AT_R0 + 4 * i, 4, record->r[i]);
    mb_internal_put(bytes + MB_AT_SP, 4, record->sp);
    mb_internal_put(bytes + MB_AT_BASE_KIND, 1, record->base.kind);
    mb_internal_put(bytes + MB_AT_BASE_OFFSET, 4, record->base.offset);
    mb_internal_put(bytes + MB_AT_PLACE, 2, record->place);
    mb_internal_put(bytes + MB_AT_FLAGS, 1, flags);
}

static inline void mb_internal_from_bytes(const uint8_t *bytes, mb_record *record)
{
    uint32_t flags = mb_internal_get(bytes + MB_AT_FLAGS, 1);
    for (size_t i = 0; i < 8; i++)
        record->r[i] = mb_internal_get(bytes + MB_AT_R0 + 4 * i, 4);
    record->sp = mb_internal_get(bytes + MB_AT_SP, 4);
    record->base.kind = (uint8_t)mb_internal_get(bytes + MB_AT_BASE_KIND, 1);
    record->base.offset = mb_internal_get(bytes + MB_AT_BASE_OFFSET, 4);
    record->place = (uint16_t)mb_internal_get(bytes + MB_AT_PLACE, 2);
    record->n = (flags & 8u) != 0;
    record->z = (flags & 4u) != 0;
    record->c = (flags & 2u) != 0;
    record->v = (flags & 1u) != 0;
}

static inline uint32_t mb_internal_said(uint32_t answer, uint32_t position, mb_refused *refused)
{
    if (refused != NULL) {
        refused->number = answer;
        refused->position = position;
    }
    return answer;
}

/* ---- Initialisers */

static inline mb_program mb_program_of(const uint8_t *page, size_t page_length)
{
    mb_program program;
    program.page = page;
    program.page_length = page_length;
    program.never_return = 0;
    program.profile = MB_PROFILE_FULL;
    return program;
}

static inline mb_setting mb_setting_of(mb_program program, const uint8_t *external, size_t external_length)
{
    mb_setting setting;
    setting.program = program;
    setting.external = external;
    setting.external_length = external_length;
    setting.window_start = 0;
    setting.window_end = MB_RAM_BYTES;
    return setting;
}

static inline mb_image mb_image_of(uint8_t *image, size_t image_length, uint8_t *index, size_t index_length)
{
    mb_image of;
    of.image = image;
    of.image_length = image_length;
    of.index = index;
    of.index_length = index_length;
    of.never_return = 0;
    of.profile = MB_PROFILE_FULL;
    return of;
}

static inline mb_image_setting mb_image_setting_of(mb_image image, const uint8_t *external, size_t external_length)
{
    mb_image_setting setting;
    setting.image = image;
    setting.external = external;
    setting.external_length = external_length;
    setting.window_start = 0;
    setting.window_end = MB_RAM_BYTES;
    return setting;
}

/* The set of direct syscall n alone, 0 to 63, for never_return; of any other n the
 * empty set. (1 << n would be an int's bit.) */
static inline uint64_t mb_syscall_bit(uint32_t n)
{
    return n < 64 ? UINT64_C(1) << n : 0;
}

/* 01's fresh record. */
static inline mb_record mb_fresh(void)
{
    uint8_t bytes[MB_RECORD_BYTES];
    mb_record record;
    mb_raw_fresh(bytes, sizeof bytes); /* refuses another length alone */
    mb_internal_from_bytes(bytes, &record);
    return record;
}

/* Before the first run: a stop at the budget after 0 steps. */
static inline mb_stopped mb_nothing_run(void)
{
    mb_stopped stopped;
    stopped.kind = MB_STOP_BUDGET;
    stopped.value = 0;
    stopped.literal = 0;
    stopped.position = 0;
    stopped.steps = 0;
    return stopped;
}

/* ---- Calls */

/* The archive's version, as MB_VERSION has it. */
static inline uint32_t mb_version(void)
{
    return mb_raw_version();
}

/* The count of a program. Refused (18, 1): count 0. */
static inline uint32_t mb_count(const mb_program *program, uint32_t *count)
{
    const uint8_t own = 0;
    return mb_raw_count(mb_internal_read(program->page, program->page_length, &own), program->page_length,
                        program->never_return, program->profile, count);
}

/* Bundle k of a program. Refused (18, 1, 8): a bad bundle. */
static inline uint32_t mb_read_bundle(const mb_program *program, uint32_t k, mb_reading *reading)
{
    const uint8_t own = 0;
    return mb_raw_read_bundle(mb_internal_read(program->page, program->page_length, &own), program->page_length,
                              program->never_return, program->profile, k, &reading->kind, &reading->largest);
}

/* The base of an address. Of the setting, the external data alone is looked at.
 * Refused (3): none. */
static inline uint32_t mb_validate(const mb_setting *setting, uint32_t address, mb_base *base)
{
    const uint8_t own = 0;
    uint32_t kind = MB_BASE_NONE;
    uint32_t answer = mb_raw_validate(address, mb_internal_read(setting->external, setting->external_length, &own),
                                      setting->external_length, &kind, &base->offset);
    base->kind = (uint8_t)kind;
    return answer;
}

/* Stores a record in a room of MB_RECORD_BYTES bytes. Refused: the room has
 * another length (6); the record is out of range (7), at the position that refused
 * then has. */
static inline uint32_t mb_store(const mb_record *record, uint8_t *room, size_t room_length, mb_refused *refused)
{
    uint8_t bytes[MB_RECORD_BYTES], own = 0;
    uint32_t answer, position = 0;
    mb_internal_to_bytes(record, bytes);
    answer = mb_raw_store(bytes, sizeof bytes, mb_internal_written(room, room_length, &own), room_length, &position);
    return mb_internal_said(answer, position, refused);
}

/* Reads a stored record back. Refused: the stored form has another length (6);
 * the record in it is out of range (7), at the position that refused then has. */
static inline uint32_t mb_load(const uint8_t *stored, size_t stored_length, mb_record *record, mb_refused *refused)
{
    uint8_t bytes[MB_RECORD_BYTES];
    const uint8_t own = 0;
    uint32_t position = 0;
    uint32_t answer = mb_raw_load(mb_internal_read(stored, stored_length, &own), stored_length, bytes, sizeof bytes,
                                  &position);
    if (answer == MB_ACCEPTED)
        mb_internal_from_bytes(bytes, record);
    return mb_internal_said(answer, position, refused);
}

/* Packs a stored record: writes its short form, for slow links, to the start of the
 * room, and how long it is to *length. The room's bytes past it stay. A room of
 * MB_SHORT_MOST bytes does for every record. Refused: the stored form has another
 * length than MB_RECORD_BYTES (6); the record in it is out of range (7), at the
 * position that refused then has; the room is too small for this record (10). */
static inline uint32_t mb_pack(const uint8_t *stored, size_t stored_length, uint8_t *room, size_t room_length,
                               size_t *length, mb_refused *refused)
{
    uint8_t own[2] = {0, 0};
    uint32_t position = 0;
    uint32_t answer = mb_raw_pack(mb_internal_read(stored, stored_length, &own[0]), stored_length,
                                  mb_internal_written(room, room_length, &own[1]), room_length, length, &position);
    return mb_internal_said(answer, position, refused);
}

/* Unpacks a short form: writes the stored record to a room of MB_RECORD_BYTES bytes.
 * Refused: the room has another length (6); a number has more groups than it needs
 * or than five, is cut off, or something follows the last (9); the record is out of
 * range, or a number is past its field (7), at the position that refused then has,
 * in the stored form. */
static inline uint32_t mb_unpack(const uint8_t *packed, size_t packed_length, uint8_t *room, size_t room_length,
                                 mb_refused *refused)
{
    uint8_t own[2] = {0, 0};
    uint32_t position = 0;
    uint32_t answer = mb_raw_unpack(mb_internal_read(packed, packed_length, &own[0]), packed_length,
                                    mb_internal_written(room, room_length, &own[1]), room_length, &position);
    return mb_internal_said(answer, position, refused);
}

/* Runs a record with a budget of steps. Refused (18, 1, 2, 3, 20, 255, 41, 42, 43, 44, 5):
 * 0 steps. After MB_STOP_BUDGET call again with record and RAM as they came back: such
 * slices end as one run with the sum of their budgets, at most 4,294,967,295, would, and
 * their steps add up. */
static inline uint32_t mb_run(const mb_setting *setting, uint8_t *ram, size_t ram_length,
                              mb_record *record, uint32_t budget, mb_stopped *stopped)
{
    const mb_program *program = &setting->program;
    uint8_t bytes[MB_RECORD_BYTES], own[3] = {0, 0, 0};
    uint32_t answer;
    mb_internal_to_bytes(record, bytes);
    answer = mb_raw_run(mb_internal_read(program->page, program->page_length, &own[0]), program->page_length,
                        program->never_return, program->profile,
                        mb_internal_written(ram, ram_length, &own[1]), ram_length,
                        mb_internal_read(setting->external, setting->external_length, &own[2]),
                        setting->external_length, setting->window_start, setting->window_end,
                        bytes, sizeof bytes, budget,
                        &stopped->kind, &stopped->value, &stopped->literal, &stopped->position, &stopped->steps);
    mb_internal_from_bytes(bytes, record);
    return answer;
}

/* One step: a run with budget 1, as mb_raw_step is proved to be. */
static inline uint32_t mb_step(const mb_setting *setting, uint8_t *ram, size_t ram_length,
                               mb_record *record, mb_stopped *stopped)
{
    return mb_run(setting, ram, ram_length, record, 1, stopped);
}

/* ---- Calls on an image */

/* Fills the index: each byte with the count of its page. The image is only read. Refused
 * (18, 12, 14): the index stays. */
static inline uint32_t mb_image_build(const mb_image *image)
{
    uint8_t own[2] = {0, 0};
    return mb_raw_image_build(mb_internal_read(image->image, image->image_length, &own[0]), image->image_length,
                              mb_internal_written(image->index, image->index_length, &own[1]), image->index_length,
                              image->never_return, image->profile);
}

/* Puts a page of MB_IMAGE_PAGE_BYTES bytes in the place of the page with that number,
 * from 0, and its count into the byte of that page; nothing else changes. So an index
 * that is right stays right, without being built anew; the other bytes of one that isn't
 * stay wrong. The page given must not lie in the image or the index. Refused (18, 12, 13,
 * 14, and 1 where the page isn't MB_IMAGE_PAGE_BYTES): image and index stay. */
static inline uint32_t mb_image_replace(const mb_image *image, uint32_t number, const uint8_t *page, size_t page_length)
{
    uint8_t own[3] = {0, 0, 0};
    return mb_raw_image_replace(mb_internal_written(image->image, image->image_length, &own[0]), image->image_length,
                                mb_internal_written(image->index, image->index_length, &own[1]), image->index_length,
                                image->never_return, image->profile, number,
                                mb_internal_read(page, page_length, &own[2]), page_length);
}

/* Runs a record in the page with that number, from 0: as mb_run does in that page alone,
 * literals, branches and exits included. Refused (18, 12, 13, 14, 21, 2, 3, 20, 255, 41,
 * 42, 43, 44, 5): 0 steps. 21 says that some byte of the index isn't its page's count
 * under never_return and profile, be it of this page or another. So every run counts
 * every page of the image: a long slice costs that once, many short ones each time. */
static inline uint32_t mb_image_run(const mb_image_setting *setting, uint32_t number, uint8_t *ram, size_t ram_length,
                                    mb_record *record, uint32_t budget, mb_stopped *stopped)
{
    const mb_image *image = &setting->image;
    uint8_t bytes[MB_RECORD_BYTES], own[4] = {0, 0, 0, 0};
    uint32_t answer;
    mb_internal_to_bytes(record, bytes);
    answer = mb_raw_image_run(mb_internal_read(image->image, image->image_length, &own[0]), image->image_length,
                              mb_internal_read(image->index, image->index_length, &own[1]), image->index_length,
                              image->never_return, image->profile, number,
                              mb_internal_written(ram, ram_length, &own[2]), ram_length,
                              mb_internal_read(setting->external, setting->external_length, &own[3]),
                              setting->external_length, setting->window_start, setting->window_end,
                              bytes, sizeof bytes, budget,
                              &stopped->kind, &stopped->value, &stopped->literal, &stopped->position, &stopped->steps);
    mb_internal_from_bytes(bytes, record);
    return answer;
}

/* One step: a run with budget 1, as mb_raw_image_step is proved to be. It too counts every
 * page. */
static inline uint32_t mb_image_step(const mb_image_setting *setting, uint32_t number, uint8_t *ram, size_t ram_length,
                                     mb_record *record, mb_stopped *stopped)
{
    return mb_image_run(setting, number, ram, ram_length, record, 1, stopped);
}

/* ---- Exits */

/* What a service asks of the host, by its low byte and its literal. */
static inline mb_exit_parts mb_exit(uint32_t low, uint32_t literal)
{
    mb_exit_parts parts;
    mb_raw_exit(low, literal, &parts.kind, &parts.number, &parts.immediate, &parts.address, &parts.words);
    return parts;
}

/* What a stop asks of the host: MB_EXIT_NONE if it isn't at a service, since
 * 256 is no low byte. */
static inline mb_exit_parts mb_exit_of(const mb_stopped *stopped)
{
    bool at_service = stopped->kind == MB_STOP_SERVICE || stopped->kind == MB_STOP_SERVICE_BY_LITERAL;
    return mb_exit(at_service ? stopped->value : 256u, stopped->literal);
}

/* ---- Words of a number; "unknown" if it has none. */

static inline const char *mb_refusal_words(uint32_t number)
{
    switch (number) {
    case MB_ACCEPTED: return "accepted";
    case MB_REFUSED_PAGE_LENGTH: return "page is above 256 bytes or no multiple of 4; for an image, not 256 bytes";
    case MB_REFUSED_RAM_LENGTH: return "RAM is not 32768 bytes";
    case MB_REFUSED_EXTERNAL_LENGTH: return "external data is above 16777216 bytes or no multiple of 256";
    case MB_REFUSED_UNFIT_PLACE: return "place is not fit";
    case MB_REFUSED_FORM_LENGTH: return "stored form, or the room lent for it, is not 44 bytes";
    case MB_REFUSED_FORM_RANGE: return "stored or given record is out of range";
    case MB_REFUSED_NO_SUCH_BUNDLE: return "asked bundle is not in the page";
    case MB_REFUSED_NOT_GROUPED: return "short form is not in shortest groups, is cut off or is followed by bytes";
    case MB_REFUSED_ROOM_TOO_SMALL: return "room for the written form is too small";
    case MB_REFUSED_IMAGE_LENGTH: return "image is not 1 to 4096 pages of 256 bytes";
    case MB_REFUSED_NO_SUCH_PAGE: return "page is not in the image";
    case MB_REFUSED_INDEX_LENGTH: return "index is not one byte a page";
    case MB_REFUSED_UNKNOWN_PROFILE: return "unknown profile";
    case MB_REFUSED_WINDOW_BOUNDS: return "window starts above its end or ends above 32768";
    case MB_REFUSED_WRONG_INDEX: return "index byte is not its page's count";
    case MB_REFUSED_SP_BOUNDS: return "SP is below 0x10000 or above 0x18000";
    case MB_REFUSED_SP_ALIGNMENT: return "SP is no multiple of 4";
    case MB_REFUSED_RAM_OFFSET: return "RAM offset is not below 2^20";
    case MB_REFUSED_EXTERNAL_OFFSET: return "external offset is not below the external data's length";
    case MB_REFUSED_NO_RECORD: return "bytes hold no record";
    default: return "unknown";
    }
}

/* The field of a record that begins at a position; of a refusal's, where it is 7's or
 * isn't 0. */
static inline const char *mb_field_words(uint32_t position)
{
    switch (position) {
    case MB_AT_R0: return "r0";
    case MB_AT_R0 + 4: return "r1";
    case MB_AT_R0 + 8: return "r2";
    case MB_AT_R0 + 12: return "r3";
    case MB_AT_R0 + 16: return "r4";
    case MB_AT_R0 + 20: return "r5";
    case MB_AT_R0 + 24: return "r6";
    case MB_AT_R0 + 28: return "r7";
    case MB_AT_SP: return "SP";
    case MB_AT_BASE_KIND: return "base kind";
    case MB_AT_BASE_OFFSET: return "base offset";
    case MB_AT_PLACE: return "place";
    case MB_AT_FLAGS: return "flags";
    default: return "unknown";
    }
}

static inline const char *mb_fault_words(uint32_t number)
{
    switch (number) {
    case MB_FAULT_NO_BASE: return "no base, or external base where RAM is needed";
    case MB_FAULT_PAST_RAM: return "past RAM";
    case MB_FAULT_OFF_EXTERNAL_PAGE: return "off the external page";
    case MB_FAULT_PAST_STACK: return "stack access past 0x18000";
    case MB_FAULT_LOW_STACK: return "SP below 0x10000";
    case MB_FAULT_PAST_PAGE: return "literal load past the page";
    case MB_FAULT_OUTSIDE_WINDOW: return "access to RAM outside the window";
    default: return "unknown";
    }
}

static inline const char *mb_stop_words(uint32_t kind)
{
    switch (kind) {
    case MB_STOP_BUDGET: return "budget is spent";
    case MB_STOP_SERVICE: return "service exit";
    case MB_STOP_SERVICE_BY_LITERAL: return "service exit with its literal";
    case MB_STOP_FAULT: return "fault";
    case MB_STOP_UNLISTED: return "unlisted halfword";
    case MB_STOP_REFUSED: return "refused";
    default: return "unknown";
    }
}

static inline const char *mb_exit_words(uint32_t kind)
{
    switch (kind) {
    case MB_EXIT_NONE: return "no exit";
    case MB_EXIT_RETURN: return "return";
    case MB_EXIT_CALL: return "call";
    case MB_EXIT_TAIL_CALL: return "tail call";
    case MB_EXIT_SYSCALL: return "syscall";
    case MB_EXIT_TAIL_SYSCALL: return "tail syscall";
    case MB_EXIT_LONG_BRANCH: return "long branch";
    case MB_EXIT_DIRECT_SYSCALL: return "direct syscall";
    case MB_EXIT_BREAKPOINT: return "breakpoint";
    case MB_EXIT_CALL_REGISTER: return "call by register";
    case MB_EXIT_TAIL_CALL_REGISTER: return "tail call by register";
    default: return "unknown";
    }
}

#ifdef __cplusplus
}
#endif

#endif
