/* How much stack each call of the archive takes: it is made on a painted stack of its own, and what isn't painted any more
 * is what it took, from the arguments that its caller pushes down. Prints a line for each call, with the most that it took in a
 * profile; fails above MB_STACK_BYTES. */
#define _XOPEN_SOURCE 700
#include "marshbodkin.h"
#include "records.h"

#include <string.h>
#include <ucontext.h>

enum { STACK = 65536, PAINT = 0xA5 };

static uint8_t stack[STACK];
static const uint8_t *top; /* where the measured call begins */
static ucontext_t caller;
static void (*measured)(void);

/* What is lent to the calls. */
static uint8_t page[MB_PAGE_MOST], ram[MB_RAM_BYTES], external[256], record[MB_RECORD_BYTES], room[MB_RECORD_BYTES];
static uint8_t packed[MB_SHORT_MOST];
static uint8_t image[2 * MB_IMAGE_PAGE_BYTES], image_index[2]; /* the page is the second of an image */
static uint8_t no_record[MB_RECORD_BYTES] = {[MB_AT_BASE_KIND] = 3};
/* A record of the longest short form, with five groups for each register; and a number of six. */
static const uint8_t longest[MB_RECORD_BYTES] = {
    0xFF, 0xFF, 0xFF, 0xFF, 0xFF, 0xFF, 0xFF, 0xFF, 0xFF, 0xFF, 0xFF, 0xFF, 0xFF, 0xFF, 0xFF, 0xFF,
    0xFF, 0xFF, 0xFF, 0xFF, 0xFF, 0xFF, 0xFF, 0xFF, 0xFF, 0xFF, 0xFF, 0xFF, 0xFF, 0xFF, 0xFF, 0xFF,
    0x00, 0x00, 0x01, 0x00, 0x02, 0xFF, 0xFF, 0xFF, 0x00, 0x7F, 0x00, 0x0F,
};
static const uint8_t six_groups[] = {0xFF, 0xFF, 0xFF, 0xFF, 0xFF, 0x01};
static size_t page_length;
static const uint64_t never_return = 1; /* syscall 0, and not 1, which the page has */
static uint32_t profile;
static uint32_t code, refused, position, numbers[5];
static size_t length;
static mb_stopped stopped;

/* ---- the calls, each of which leaves 0 in code; those that can go other ways do so first, and add up what they refuse or
 * fault by */

static void version(void) { code = mb_raw_version() - MB_VERSION; }
static void count(void) { code = mb_raw_count(page, page_length, never_return, profile, &numbers[0]); }
static void validate(void) { code = mb_raw_validate(0x80000001, external, sizeof external, &numbers[0], &numbers[1]); }
static void fresh(void) { code = mb_raw_fresh(record, sizeof record); }

static void store(void)
{
    refused += mb_raw_store(no_record, sizeof no_record, room, sizeof room, &position);
    code = mb_raw_store(record, sizeof record, room, sizeof room, &position);
}

static void load(void)
{
    refused += mb_raw_load(no_record, sizeof no_record, record, sizeof record, &position);
    code = mb_raw_load(room, sizeof room, record, sizeof record, &position);
}

static void pack(void)
{
    refused += mb_raw_pack(no_record, sizeof no_record, packed, sizeof packed, &length, &position);
    refused += mb_raw_pack(longest, sizeof longest, packed, sizeof packed - 1, &length, &position);
    code = mb_raw_pack(longest, sizeof longest, packed, sizeof packed, &length, &position);
}

/* What was packed, with its flags, in the last byte, out of range at first. */
static void unpack(void)
{
    refused += mb_raw_unpack(six_groups, sizeof six_groups, room, sizeof room, &position);
    packed[sizeof packed - 1] ^= 16;
    refused += mb_raw_unpack(packed, sizeof packed, room, sizeof room, &position);
    packed[sizeof packed - 1] ^= 16;
    code = mb_raw_unpack(packed, sizeof packed, room, sizeof room, &position);
}

static void read_bundle(void)
{
    for (uint32_t k = 0; k < page_length / 4; k++)
        code = mb_raw_read_bundle(page, page_length, never_return, profile, k, &numbers[0], &numbers[1]);
}

static void decode_exit(void)
{
    for (uint32_t low = 0; low < 256; low++)
        mb_raw_exit(low, 0x80070001, &numbers[0], &numbers[1], &numbers[2], &numbers[3], &numbers[4]);
}

/* In a window up to an offset: all of RAM, none of it, or more, which is refused. */
static uint32_t run_from(uint8_t *bytes, uint32_t window_end)
{
    return mb_raw_run(page, page_length, never_return, profile, ram, sizeof ram, external, sizeof external,
                      0, window_end, bytes, MB_RECORD_BYTES, 1000, &stopped.kind, &stopped.value, &stopped.literal,
                      &stopped.position, &stopped.steps);
}

static uint32_t step_from(uint8_t *bytes, uint32_t window_end)
{
    return mb_raw_step(page, page_length, never_return, profile, ram, sizeof ram, external, sizeof external,
                       0, window_end, bytes, MB_RECORD_BYTES, &stopped.kind, &stopped.value, &stopped.literal,
                       &stopped.position, &stopped.steps);
}

/* The page goes on behind a direct syscall, up to its exit by a literal; without RAM to its first access. */
static void run(void)
{
    refused += run_from(no_record, MB_RAM_BYTES);
    refused += run_from(no_record, MB_RAM_BYTES + 1);
    fresh();
    refused += run_from(record, 0);
    refused += stopped.value;
    fresh();
    do {
        code = run_from(record, MB_RAM_BYTES);
    } while (stopped.kind == MB_STOP_SERVICE);
}

static void steps(void)
{
    refused += step_from(no_record, MB_RAM_BYTES);
    refused += step_from(no_record, MB_RAM_BYTES + 1);
    fresh();
    do {
        refused += step_from(record, 0);
        refused += stopped.value;
    } while (stopped.kind == MB_STOP_BUDGET);
    fresh();
    do {
        code = step_from(record, MB_RAM_BYTES);
    } while (stopped.kind == MB_STOP_BUDGET || stopped.kind == MB_STOP_SERVICE);
}

static void image_build(void)
{
    refused += mb_raw_image_build(image, sizeof image - 1, image_index, sizeof image_index, never_return, profile);
    refused += mb_raw_image_build(image, sizeof image, image_index, 1, never_return, profile);
    code = mb_raw_image_build(image, sizeof image, image_index, sizeof image_index, never_return, profile);
}

static uint32_t replace_by(uint32_t number, size_t new_length)
{
    return mb_raw_image_replace(image, sizeof image, image_index, sizeof image_index, never_return, profile, number, page,
                                new_length);
}

static void image_replace(void)
{
    refused += replace_by(2, sizeof page);
    refused += replace_by(1, sizeof page - 4);
    code = replace_by(1, sizeof page);
}

static uint32_t image_run_from(uint8_t *bytes, uint32_t window_end)
{
    return mb_raw_image_run(image, sizeof image, image_index, sizeof image_index, never_return, profile, 1, ram, sizeof ram,
                            external, sizeof external, 0, window_end, bytes, MB_RECORD_BYTES, 1000, &stopped.kind,
                            &stopped.value, &stopped.literal, &stopped.position, &stopped.steps);
}

static uint32_t image_step_from(uint8_t *bytes, uint32_t window_end)
{
    return mb_raw_image_step(image, sizeof image, image_index, sizeof image_index, never_return, profile, 1, ram, sizeof ram,
                             external, sizeof external, 0, window_end, bytes, MB_RECORD_BYTES, &stopped.kind, &stopped.value,
                             &stopped.literal, &stopped.position, &stopped.steps);
}

/* As the run and the steps of the page alone, and refused by an index with a wrong byte at its end. */
static void image_run(void)
{
    image_index[1]++;
    refused += image_run_from(record, MB_RAM_BYTES);
    image_index[1]--;
    refused += image_run_from(no_record, MB_RAM_BYTES);
    refused += image_run_from(no_record, MB_RAM_BYTES + 1);
    fresh();
    refused += image_run_from(record, 0);
    refused += stopped.value;
    fresh();
    do {
        code = image_run_from(record, MB_RAM_BYTES);
    } while (stopped.kind == MB_STOP_SERVICE);
}

static void image_steps(void)
{
    image_index[1]++;
    refused += image_step_from(record, MB_RAM_BYTES);
    image_index[1]--;
    refused += image_step_from(no_record, MB_RAM_BYTES);
    refused += image_step_from(no_record, MB_RAM_BYTES + 1);
    fresh();
    do {
        refused += image_step_from(record, 0);
        refused += stopped.value;
    } while (stopped.kind == MB_STOP_BUDGET);
    fresh();
    do {
        code = image_step_from(record, MB_RAM_BYTES);
    } while (stopped.kind == MB_STOP_BUDGET || stopped.kind == MB_STOP_SERVICE);
}

/* No call: it takes more than any may. */
static void greedy(void)
{
    volatile uint8_t area[MB_STACK_BYTES];
    for (size_t i = 0; i < sizeof area; i++)
        area[i] = 0;
    code = area[0];
}

/* ---- the measure */

static void on_the_stack(void)
{
    uint8_t here = 0;
    top = &here + 1;
    measured();
}

/* Bytes below the caller's frame that aren't painted any more; the frame itself, some words, is counted in. */
static size_t taken_by(void (*call)(void))
{
    ucontext_t context;
    size_t untouched = 0;
    measured = call;
    memset(stack, PAINT, sizeof stack);
    getcontext(&context);
    context.uc_stack.ss_sp = stack;
    context.uc_stack.ss_size = sizeof stack;
    context.uc_link = &caller;
    makecontext(&context, on_the_stack, 0);
    swapcontext(&caller, &context);
    while (stack[untouched] == PAINT)
        untouched++;
    return (size_t)(top - (stack + untouched));
}

/* ---- a page that reaches every function that a run comes to; so many of its bundles are code */

enum { CODE = 17 };

static void put_page(void)
{
    static const uint16_t halfwords[] = {
        0xDFC4, 0xDFE1, /* 0: SP down by 4 words; a base by r1 */
        0xF240, 0x0100, 0xF2C0, 0x0101, /* 1, 2: r1 = 0x10000 */
        0xBF00, 0xDFE1, 0xF8C9, 0x1000, 0xF8D8, 0x2000, 0xF9B9, 0x3001, /* 3 to 6: stores and loads by the base */
        0x9001, 0x9801, 0x4801, 0xA802, /* 7, 8: by SP, and from the page */
        0xFBB1, 0xF2F3, 0x4148, 0x41C8, /* 9, 10: udiv, adc, ror */
        0xDF11, 0xDF12, 0xDF13, 0xDF14, 0xDF15, 0xDF81, /* 11 to 13: literal operations 1 to 5; a direct syscall */
        0x2C01, 0xD001, 0x2401, 0xE7E1, /* 14, 15: once more from bundle 1 */
        0xBF00, 0xDF16, /* 16: tail syscall by its literal */
        0x0000, 0xC100, 0x0000, 0xC201, 0x0001, 0xC300, 0x0004, 0xC420, 0x0004, 0xC540, 0x0001, 0x8007, /* literals */
    };
    page_length = sizeof halfwords;
    put_halfwords(page, halfwords, sizeof halfwords / sizeof halfwords[0]);
}

/* Nops in the stead of the bundles that the small profile lacks: what opens 32 bits begins with 0xE8 or more. */
static void leave_out_32_bits(void)
{
    static const uint16_t nops[] = {0xBF00, 0xBF00};
    for (size_t at = 0; at < page_length; at += MB_BUNDLE_BYTES)
        if (page[at + 1] >= 0xE8)
            put_halfwords(page + at, nops, 2);
}

static void lend(uint32_t in_profile)
{
    profile = in_profile;
    put_page();
    if (profile == MB_PROFILE_SMALL)
        leave_out_32_bits();
    memcpy(image + MB_IMAGE_PAGE_BYTES, page, sizeof page);
    image_index[0] = 0;
    image_index[1] = CODE;
    stopped = mb_nothing_run();
    refused = 0;
}

/* ---- all calls */

typedef struct { const char *name; void (*call)(void); uint32_t value, refused; } named_call;

/* The most stack that a call takes in a profile; it must be accepted, and run to the page's end, but for what it is to refuse. */
static size_t most_taken(named_call named)
{
    size_t most = 0;
    for (uint32_t in = MB_PROFILE_FULL; in <= MB_PROFILE_SMALL; in++) {
        size_t taken;
        lend(in);
        taken = taken_by(named.call);
        most = taken > most ? taken : most;
        CHECK(code, MB_ACCEPTED);
        CHECK(stopped.value, named.value);
        CHECK(refused, named.refused);
    }
    return most;
}

int main(void)
{
    static const named_call calls[] = {
        {"version", version, 0, 0}, {"count", count, 0, 0}, {"read_bundle", read_bundle, 0, 0},
        {"validate", validate, 0, 0}, {"fresh", fresh, 0, 0},
        {"step", steps, 0x16, MB_REFUSED_NO_RECORD + MB_REFUSED_WINDOW_BOUNDS + MB_FAULT_OUTSIDE_WINDOW},
        {"run", run, 0x16, MB_REFUSED_NO_RECORD + MB_REFUSED_WINDOW_BOUNDS + MB_FAULT_OUTSIDE_WINDOW},
        {"store", store, 0, MB_REFUSED_FORM_RANGE}, {"load", load, 0, MB_REFUSED_FORM_RANGE},
        {"pack", pack, 0, MB_REFUSED_FORM_RANGE + MB_REFUSED_ROOM_TOO_SMALL},
        {"unpack", unpack, 0, MB_REFUSED_NOT_GROUPED + MB_REFUSED_FORM_RANGE}, {"exit", decode_exit, 0, 0},
        {"image_build", image_build, 0, MB_REFUSED_IMAGE_LENGTH + MB_REFUSED_INDEX_LENGTH},
        {"image_replace", image_replace, 0, MB_REFUSED_NO_SUCH_PAGE + MB_REFUSED_PAGE_LENGTH},
        {"image_step", image_steps, 0x16,
         MB_REFUSED_WRONG_INDEX + MB_REFUSED_NO_RECORD + MB_REFUSED_WINDOW_BOUNDS + MB_FAULT_OUTSIDE_WINDOW},
        {"image_run", image_run, 0x16,
         MB_REFUSED_WRONG_INDEX + MB_REFUSED_NO_RECORD + MB_REFUSED_WINDOW_BOUNDS + MB_FAULT_OUTSIDE_WINDOW},
    };
    for (size_t i = 0; i < sizeof calls / sizeof calls[0]; i++) {
        size_t most = most_taken(calls[i]);
        printf("mb_raw_%s %zu\n", calls[i].name, most);
        CHECK(most <= MB_STACK_BYTES, true);
    }
    CHECK(taken_by(greedy) > MB_STACK_BYTES, true);
    return outcome("stack.c");
}
