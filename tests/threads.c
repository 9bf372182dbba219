/* Two threads run different pages at once, over and over, by turns as a lone page and in an image that both share; each must
 * come to what its page comes to alone. */
#define _XOPEN_SOURCE 700
#include "check.h"
#include "marshbodkin.h"
#include "records.h"

#include <pthread.h>
#include <string.h>

enum { ROUNDS = 2000, SLICE = 500, SLICES = 10 };

/* A page, where it leaves record and RAM, and what its stops were. */
typedef struct {
    uint8_t page[MB_PAGE_MOST];
    size_t page_length;
    uint32_t number; /* of the page in the image */
    uint8_t ram[MB_RAM_BYTES];
    mb_record record;
    mb_stopped stops[SLICES];
    uint32_t refusals;
} work;

/* Adds, shifts, products and a division, for ever. */
static const uint16_t arithmetic[] = {
    0xF241, 0x2034, 0x2107, 0x22C8, 0x1843, 0x405C, 0x00E5, 0x434A, 0x1843, 0x405C, 0x08E5, 0x434A, 0xFBB0, 0xF6F1, 0x42A3, 0xE7F3,
};

/* Words into RAM by the base, further up each time, and their sum onto the stack, for ever. */
static const uint16_t memory[] = {
    0xF2C0, 0x0001, 0xBF00, 0xDFE0, 0xF8C9, 0x0000, 0xF8D9, 0x1000, 0x185B, 0x9300, 0x3004, 0xE7F5,
};

static uint8_t pages[2 * MB_IMAGE_PAGE_BYTES], counts[2];

static mb_image image(void) { return mb_image_of(pages, sizeof pages, counts, sizeof counts); }

static void begin(work *w, uint32_t number, const uint16_t *halfwords, size_t length)
{
    memset(w, 0, sizeof *w);
    w->page_length = 2 * length;
    w->number = number;
    put_halfwords(w->page, halfwords, length);
    memcpy(pages + MB_IMAGE_PAGE_BYTES * number, w->page, sizeof w->page);
}

static void run_slices(work *w)
{
    mb_setting setting = mb_setting_of(mb_program_of(w->page, w->page_length), NULL, 0);
    mb_image_setting shared = mb_image_setting_of(image(), NULL, 0);
    memset(w->ram, 0, sizeof w->ram);
    w->record = mb_fresh();
    w->record.sp = 0x17FFC;
    for (size_t i = 0; i < SLICES; i++)
        w->refusals += i % 2 == 0
                           ? mb_run(&setting, w->ram, sizeof w->ram, &w->record, SLICE, &w->stops[i])
                           : mb_image_run(&shared, w->number, w->ram, sizeof w->ram, &w->record, SLICE, &w->stops[i]);
}

static bool same_work(const work *one, const work *other)
{
    return memcmp(one->ram, other->ram, sizeof one->ram) == 0 && same_record(&one->record, &other->record) &&
           memcmp(one->stops, other->stops, sizeof one->stops) == 0 && one->refusals == 0 && other->refusals == 0;
}

/* A thread's work, what it comes to alone, and how many rounds came to something else. */
typedef struct {
    work now, alone;
    uint32_t differing;
} thread_work;

static pthread_barrier_t barrier;

static void *rounds(void *given)
{
    thread_work *t = given;
    for (int i = 0; i < ROUNDS; i++) {
        pthread_barrier_wait(&barrier);
        run_slices(&t->now);
        t->differing += !same_work(&t->now, &t->alone);
    }
    return NULL;
}

int main(void)
{
    static thread_work works[2];
    pthread_t threads[2];
    mb_image of = image();
    begin(&works[0].now, 0, arithmetic, sizeof arithmetic / sizeof arithmetic[0]);
    begin(&works[1].now, 1, memory, sizeof memory / sizeof memory[0]);
    CHECK(mb_image_build(&of), MB_ACCEPTED);
    CHECK(counts[0], 8);
    CHECK(counts[1], 6);
    for (size_t i = 0; i < 2; i++) {
        run_slices(&works[i].now);
        works[i].alone = works[i].now;
    }
    CHECK(works[0].alone.stops[SLICES - 1].kind, MB_STOP_BUDGET);
    CHECK(works[1].alone.stops[SLICES - 1].kind, MB_STOP_BUDGET);
    CHECK(same_work(&works[0].alone, &works[1].alone), false);
    CHECK((uint32_t)pthread_barrier_init(&barrier, NULL, 2), 0);
    for (size_t i = 0; i < 2; i++)
        CHECK((uint32_t)pthread_create(&threads[i], NULL, rounds, &works[i]), 0);
    for (size_t i = 0; i < 2; i++) {
        CHECK((uint32_t)pthread_join(threads[i], NULL), 0);
        CHECK(works[i].differing, 0);
    }
    return outcome("threads.c");
}
