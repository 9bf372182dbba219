/* A host of the library: the loop to copy. It runs the filter in the file that
 * its argument names (departures.page) over pairs of pressures, observation and
 * background, and keeps in RAM the departures that the filter lets pass.
 *
 * Pressures are signed fixed point in 32 bits, (hPa - 950) * 2^24, in the external
 * data. The filter is given r0 the address of the first pair, r1 and r2 the upper
 * and the lower limit of a departure, r7 the number of pairs. It hands over each
 * pair by a direct syscall, with its departure in r3 and its background in r4:
 *
 *   0  DFE0 B18F  base = validate(r0); to 10 if r7 is 0
 *   1  F8D8 3000  r3 = observation
 *   2  F8D8 4004  r4 = background
 *   3  1B1B 428B  r3 = r3 - r4; compare r3 with r1
 *   4  DC04 4293  to 7 if greater, signed; compare r3 with r2
 *   5  DB02 DF80  to 7 if less, signed; direct syscall 0
 *   6  E002 BF00  to 8
 *   7  DF81 BF00  direct syscall 1
 *   8  3008 3F01  r0 = r0 + 8; r7 = r7 - 1
 *   9  D1EC DF00  to 0 if that isn't 0; return
 *  10  DFBF BF00  direct syscall 63, the abort
 *
 * The abort never returns, and the host says so: bundle 10 would go on otherwise,
 * off the page, and wouldn't be counted, nor would bundle 0, which leads to it. So
 * the lister, which is told no set, says count 0 of this page.
 *
 * A true low near a storm's core departs by -124 hPa. Less the upper limit that
 * is below what a word holds, so the compare overflows: by the sign bit alone the
 * departure would be greater, and the low rejected. */
#include <stdio.h>
#include <stdlib.h>
#include "marshbodkin.h"

enum { KEPT = 0, REJECTED = 1, ABORT = 63 }; /* the filter's syscalls */
enum { SLICE = 20, MOST_STEPS = 1000 }; /* of a run; of a cycle, lest a filter loop for ever */
enum { PAIR_BYTES = 8 };

static const struct { unsigned at; int observation, background; } pairs[] = {
    {0, 1012, 1010}, {1, 1017, 1010}, {2, 870, 994}, {3, 860, 987}, {4, 1000, 1006},
    {30, 998, 1001}, {31, 1003, 990},
};

typedef struct {
    mb_setting setting;
    mb_record record;
    uint8_t ram[MB_RAM_BYTES];
    uint32_t kept;  /* departures, words from the start of RAM on */
    uint32_t steps; /* of this cycle */
} host;

static void give_up(const char *why, const char *words)
{
    fprintf(stderr, "host: %s%s\n", why, words);
    exit(1);
}

/* A refusal in words, with the field of the record where one is told: 0 is r0's position with 7, and else no field's. */
static void tell_refusal(FILE *to, uint32_t number, uint32_t position)
{
    if (position == 0 && number != MB_REFUSED_FORM_RANGE)
        fprintf(to, "refused %u: %s\n", number, mb_refusal_words(number));
    else
        fprintf(to, "refused %u %u: %s at %s\n", number, position, mb_refusal_words(number), mb_field_words(position));
}

static void require(uint32_t answer, uint32_t position)
{
    if (answer == MB_ACCEPTED)
        return;
    fprintf(stderr, "host: ");
    tell_refusal(stderr, answer, position);
    exit(1);
}

static uint32_t fixed(int hpa) { return (uint32_t)(hpa * 16777216); }
static double hpa_of(uint32_t word) { return (int32_t)word / 16777216.0; }

static void put_word(uint8_t *bytes, uint32_t word)
{
    for (unsigned i = 0; i < 4; i++)
        bytes[i] = (uint8_t)(word >> (8 * i));
}

static uint32_t word_at(const uint8_t *bytes)
{
    return (uint32_t)bytes[0] | (uint32_t)bytes[1] << 8 | (uint32_t)bytes[2] << 16 | (uint32_t)bytes[3] << 24;
}

static void put_pairs(uint8_t *external)
{
    for (size_t i = 0; i < sizeof pairs / sizeof pairs[0]; i++) {
        put_word(external + PAIR_BYTES * pairs[i].at, fixed(pairs[i].observation - 950));
        put_word(external + PAIR_BYTES * pairs[i].at + 4, fixed(pairs[i].background - 950));
    }
}

/* The room has a byte more than a page may have: a longer file is refused by the count. */
static size_t read_page(const char *path, uint8_t *room)
{
    FILE *file = fopen(path, "rb");
    if (file == NULL)
        give_up("cannot open ", path);
    size_t length = fread(room, 1, MB_PAGE_MOST + 1, file);
    if (ferror(file))
        give_up("cannot read ", path);
    fclose(file);
    return length;
}

/* A pair's verdict. A departure that is kept goes into RAM, and r5 tells the filter how many there are. */
static void judged(host *h, bool kept)
{
    uint32_t departure = h->record.r[3], background = h->record.r[4];
    printf("%.1f hPa, background %.1f: departure %+.1f %s\n", 950 + hpa_of(background + departure),
           950 + hpa_of(background), hpa_of(departure), kept ? "kept" : "rejected");
    if (!kept)
        return;
    if (h->kept >= MB_RAM_BYTES / 4)
        give_up("RAM is full", "");
    put_word(h->ram + 4 * h->kept, departure);
    h->kept++;
    h->record.r[5] = h->kept;
}

/* Whether the cycle goes on after a service exit. */
static bool serve(host *h, mb_exit_parts asked)
{
    if (asked.kind == MB_EXIT_RETURN) {
        printf("return after %u steps\n", h->steps);
        return false;
    }
    if (asked.kind != MB_EXIT_DIRECT_SYSCALL)
        give_up("not served: ", mb_exit_words(asked.kind));
    switch (asked.number) {
    case KEPT:
    case REJECTED:
        judged(h, asked.number == KEPT);
        return true;
    case ABORT:
        printf("abort after %u steps\n", h->steps);
        return false;
    default:
        fprintf(stderr, "host: not served: direct syscall %u\n", asked.number);
        exit(1);
    }
}

/* Whether the cycle goes on after a stop. */
static bool goes_on(host *h, const mb_stopped *stopped)
{
    switch (stopped->kind) {
    case MB_STOP_BUDGET:
        return true;
    case MB_STOP_SERVICE:
    case MB_STOP_SERVICE_BY_LITERAL:
        return serve(h, mb_exit_of(stopped));
    case MB_STOP_FAULT:
        printf("fault %u: %s\n", stopped->value, mb_fault_words(stopped->value));
        return false;
    default:
        give_up("stopped: ", mb_stop_words(stopped->kind));
        return false;
    }
}

/* One cycle over some pairs, in slices: as long as a run stops at its budget, the next goes on with record and RAM as they
 * came back, so that where slices are cut changes nothing but how often mb_run is called. What is set here starts a new
 * series of runs. Return, fault and abort leave the place where they stand; a return leaves the stack to the host, a fault
 * leaves the base. */
static void cycle(host *h, unsigned first, unsigned number)
{
    const mb_record fresh = mb_fresh();
    mb_stopped stopped = mb_nothing_run();
    h->record.place = fresh.place;
    h->record.sp = fresh.sp;
    h->record.base = fresh.base;
    h->record.r[0] = MB_EXTERNAL_START + PAIR_BYTES * first;
    h->record.r[7] = number;
    h->steps = 0;
    do {
        uint32_t answer = mb_run(&h->setting, h->ram, sizeof h->ram, &h->record, SLICE, &stopped);
        require(answer, stopped.position);
        h->steps += stopped.steps;
        if (h->steps > MOST_STEPS)
            give_up("the filter does not end", "");
    } while (goes_on(h, &stopped));
}

/* Between cycles the record is 44 bytes, which a file would take; over a slow link it goes packed. What is damaged on the way
 * and out of range then is told by its field, here the flags, which stand last; nothing is unpacked, and the bytes are sent
 * once more. */
static void over_a_link(mb_record *record)
{
    uint8_t stored[MB_RECORD_BYTES], sent[MB_SHORT_MOST];
    size_t length;
    mb_refused refused;
    mb_store(record, stored, sizeof stored, &refused);
    require(refused.number, refused.position);
    mb_pack(stored, sizeof stored, sent, sizeof sent, &length, &refused);
    require(refused.number, refused.position);
    printf("packed %u bytes\n", (unsigned)length);
    sent[length - 1] ^= 16;
    if (mb_unpack(sent, length, stored, sizeof stored, &refused) != MB_ACCEPTED) {
        printf("damaged: ");
        tell_refusal(stdout, refused.number, refused.position);
    }
    sent[length - 1] ^= 16;
    mb_unpack(sent, length, stored, sizeof stored, &refused);
    require(refused.number, refused.position);
    mb_load(stored, sizeof stored, record, &refused);
    require(refused.number, refused.position);
}

/* Filters of many pages are kept in an image, with the count of each page beside it. The filter takes the place of page 1,
 * whose byte alone changes, and runs there as it does alone: without a pair, to its abort. Its page is filled up with zeros. */
static void in_an_image(host *h)
{
    static uint8_t pages[2 * MB_IMAGE_PAGE_BYTES], counts[2];
    mb_image image = mb_image_of(pages, sizeof pages, counts, sizeof counts);
    mb_image_setting setting;
    mb_stopped stopped = mb_nothing_run();
    mb_exit_parts asked;
    image.never_return = h->setting.program.never_return;
    require(mb_image_build(&image), 0);
    require(mb_image_replace(&image, 1, h->setting.program.page, MB_IMAGE_PAGE_BYTES), 0);
    printf("image: counts %u %u\n", counts[0], counts[1]);
    setting = mb_image_setting_of(image, h->setting.external, h->setting.external_length);
    h->record = mb_fresh();
    require(mb_image_run(&setting, 1, h->ram, sizeof h->ram, &h->record, SLICE, &stopped), stopped.position);
    asked = mb_exit_of(&stopped);
    printf("page 1: %s %u after %u steps\n", mb_exit_words(asked.kind), asked.number, stopped.steps);
}

int main(int count, char **words)
{
    static uint8_t page[MB_PAGE_MOST + 1], external[MB_EXTERNAL_PAGE_BYTES];
    static host h;
    uint32_t counted;
    if (mb_version() != MB_VERSION)
        give_up("header and archive are of different versions", "");
    if (count != 2)
        give_up("usage: host PAGE", "");
    put_pairs(external);
    h.setting = mb_setting_of(mb_program_of(page, read_page(words[1], page)), external, sizeof external);
    h.setting.program.never_return = mb_syscall_bit(ABORT);
    h.setting.window_end = 0; /* the filter needs no RAM: what the host keeps there is safe from it */
    require(mb_count(&h.setting.program, &counted), 0);
    printf("count %u of %u bundles\n", counted, (unsigned)(h.setting.program.page_length / MB_BUNDLE_BYTES));
    h.record = mb_fresh();
    h.record.r[1] = fixed(6);
    h.record.r[2] = fixed(-126);
    printf("cycle 1\n");
    cycle(&h, 0, 5);
    over_a_link(&h.record);
    printf("cycle 2\n");
    cycle(&h, 30, 3); /* the host's mistake: two pairs are left */
    printf("cycle 3\n");
    cycle(&h, 0, 0); /* another: without a pair the filter would count down from 0 */
    printf("kept");
    for (uint32_t i = 0; i < h.kept; i++)
        printf(" %+.1f", hpa_of(word_at(h.ram + 4 * i)));
    printf("\n");
    in_an_image(&h);
    if (fflush(stdout) != 0)
        give_up("cannot write", "");
    return 0;
}
