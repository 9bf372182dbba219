/* The header's calls with null areas of length 0, over proved calls of this file's own instead of the archive's: what they are
 * lent is never null and never overlaps, which the archive wouldn't show. The set of syscalls and the profile are the program's
 * or the image's, whole, the window is the setting's, the page's number is the call's, and the position and the length that come
 * back are the proved call's. Areas with bytes are lent as they are, and stay where the proved call doesn't write. */
#include "check.h"
#include "marshbodkin.h"

#include <string.h>

/* The syscalls that never return and the profile, as the program has them. */
#define NEVER_RETURN UINT64_C(0x8000000000000001)
#define PROFILE UINT32_C(0x80000001)

/* The window, as the setting has it. */
#define WINDOW_START UINT32_C(0x80000002)
#define WINDOW_END UINT32_C(0x80000003)

/* The number of a page. */
#define NUMBER UINT32_C(0x80000004)

/* Positions, and a length, that the proved calls write; answers of some. */
enum { STORE_POSITION = 71, LOAD_POSITION = 72, RUN_POSITION = 73, PACK_POSITION = 74, UNPACK_POSITION = 75,
       IMAGE_RUN_POSITION = 76 };
#define PACKED_LENGTH (SIZE_MAX - 1)
enum { PACK_ANSWER = 98, UNPACK_ANSWER = 97, BUILD_ANSWER = 96, REPLACE_ANSWER = 95 };

/* The areas of one call, and how many have another length than 0. */
static const uint8_t *areas[4];
static size_t lengths[4];
static uint32_t areas_lent, other_lengths, other_sets, other_profiles, other_windows, other_numbers;

static void take(const uint8_t *area, size_t length)
{
    lengths[areas_lent] = length;
    areas[areas_lent++] = area;
    other_lengths += length != 0;
}

static void take_program(const uint8_t *page, size_t page_length, uint64_t never_return, uint32_t profile)
{
    take(page, page_length);
    other_sets += never_return != NEVER_RETURN;
    other_profiles += profile != PROFILE;
}

uint32_t mb_raw_count(const uint8_t *page, size_t page_length, uint64_t never_return, uint32_t profile, uint32_t *count)
{
    take_program(page, page_length, never_return, profile);
    return *count = 0;
}

uint32_t mb_raw_read_bundle(const uint8_t *page, size_t page_length, uint64_t never_return, uint32_t profile, uint32_t k,
                            uint32_t *kind, uint32_t *largest)
{
    take_program(page, page_length, never_return, profile);
    return *kind = *largest = k;
}

uint32_t mb_raw_validate(uint32_t v, const uint8_t *external, size_t external_length, uint32_t *kind, uint32_t *offset)
{
    take(external, external_length);
    return *kind = *offset = v;
}

uint32_t mb_raw_fresh(uint8_t *record, size_t record_length)
{
    for (size_t i = 0; i < record_length; i++)
        record[i] = 0;
    return 0;
}

uint32_t mb_raw_store(const uint8_t *record, size_t record_length, uint8_t *room, size_t room_length, uint32_t *position)
{
    take(room, room_length);
    *position = STORE_POSITION;
    return record_length == MB_RECORD_BYTES ? record[0] : 1;
}

uint32_t mb_raw_load(const uint8_t *stored, size_t stored_length, uint8_t *record, size_t record_length, uint32_t *position)
{
    take(stored, stored_length);
    *position = LOAD_POSITION;
    return mb_raw_fresh(record, record_length);
}

/* This and the next write nothing in the room. */
uint32_t mb_raw_pack(const uint8_t *stored, size_t stored_length, uint8_t *room, size_t room_length, size_t *length,
                     uint32_t *position)
{
    take(stored, stored_length);
    take(room, room_length);
    *length = PACKED_LENGTH;
    *position = PACK_POSITION;
    return PACK_ANSWER;
}

uint32_t mb_raw_unpack(const uint8_t *packed, size_t packed_length, uint8_t *room, size_t room_length, uint32_t *position)
{
    take(packed, packed_length);
    take(room, room_length);
    *position = UNPACK_POSITION;
    return UNPACK_ANSWER;
}

/* It answers the budget, which for a step is 1. */
uint32_t mb_raw_run(const uint8_t *page, size_t page_length, uint64_t never_return, uint32_t profile, uint8_t *ram,
                    size_t ram_length, const uint8_t *external, size_t external_length, uint32_t window_start,
                    uint32_t window_end, uint8_t *record, size_t record_length, uint32_t budget, uint32_t *kind,
                    uint32_t *value, uint32_t *literal, uint32_t *position, uint32_t *steps)
{
    take_program(page, page_length, never_return, profile);
    take(ram, ram_length);
    take(external, external_length);
    other_windows += window_start != WINDOW_START || window_end != WINDOW_END;
    *kind = *value = *literal = *steps = 0;
    *position = RUN_POSITION;
    return budget + mb_raw_fresh(record, record_length);
}

static void take_image(const uint8_t *image, size_t image_length, const uint8_t *index, size_t index_length,
                       uint64_t never_return, uint32_t profile)
{
    take_program(image, image_length, never_return, profile);
    take(index, index_length);
}

uint32_t mb_raw_image_build(const uint8_t *image, size_t image_length, uint8_t *index, size_t index_length,
                            uint64_t never_return, uint32_t profile)
{
    take_image(image, image_length, index, index_length, never_return, profile);
    return BUILD_ANSWER;
}

uint32_t mb_raw_image_replace(uint8_t *image, size_t image_length, uint8_t *index, size_t index_length, uint64_t never_return,
                              uint32_t profile, uint32_t number, const uint8_t *page, size_t page_length)
{
    take_image(image, image_length, index, index_length, never_return, profile);
    take(page, page_length);
    other_numbers += number != NUMBER;
    return REPLACE_ANSWER;
}

/* It answers the budget, as the run of a lone page does. */
uint32_t mb_raw_image_run(const uint8_t *image, size_t image_length, const uint8_t *index, size_t index_length,
                          uint64_t never_return, uint32_t profile, uint32_t number, uint8_t *ram, size_t ram_length,
                          const uint8_t *external, size_t external_length, uint32_t window_start, uint32_t window_end,
                          uint8_t *record, size_t record_length, uint32_t budget, uint32_t *kind, uint32_t *value,
                          uint32_t *literal, uint32_t *position, uint32_t *steps)
{
    take_image(image, image_length, index, index_length, never_return, profile);
    take(ram, ram_length);
    take(external, external_length);
    other_numbers += number != NUMBER;
    other_windows += window_start != WINDOW_START || window_end != WINDOW_END;
    *kind = *value = *literal = *steps = 0;
    *position = IMAGE_RUN_POSITION;
    return budget + mb_raw_fresh(record, record_length);
}

/* What a call answered, and how many areas it was lent. */
static void check_lent(int line, uint32_t answer, uint32_t expected, uint32_t number)
{
    check(line, "answer", answer, expected);
    check(line, "areas", areas_lent, number);
    check(line, "other lengths", other_lengths, 0);
    check(line, "other sets", other_sets, 0);
    check(line, "other profiles", other_profiles, 0);
    check(line, "other windows", other_windows, 0);
    check(line, "other numbers", other_numbers, 0);
    for (uint32_t i = 0; i < areas_lent; i++) {
        check(line, "null", areas[i] == NULL, false);
        for (uint32_t j = 0; j < i; j++)
            check(line, "overlap", areas[i] == areas[j], false);
    }
    areas_lent = 0;
}

#define LENT(answer, expected, number) check_lent(__LINE__, (answer), (expected), (number))

static void pack_of_nothing(void)
{
    mb_refused refused = {99, 99};
    size_t length = 0;
    LENT(mb_pack(NULL, 0, NULL, 0, &length, NULL), PACK_ANSWER, 2);
    CHECK(length == PACKED_LENGTH, true);
    length = 0;
    LENT(mb_pack(NULL, 0, NULL, 0, &length, &refused), PACK_ANSWER, 2);
    CHECK(length == PACKED_LENGTH, true);
    CHECK(refused.number, PACK_ANSWER);
    CHECK(refused.position, PACK_POSITION);
    LENT(mb_unpack(NULL, 0, NULL, 0, NULL), UNPACK_ANSWER, 2);
    LENT(mb_unpack(NULL, 0, NULL, 0, &refused), UNPACK_ANSWER, 2);
    CHECK(refused.number, UNPACK_ANSWER);
    CHECK(refused.position, UNPACK_POSITION);
}

static uint8_t given[MB_RECORD_BYTES], room[MB_SHORT_MOST];

/* The two areas of a call that was lent given and room, of these lengths. */
static void check_given(int line, size_t given_length, size_t room_length)
{
    uint8_t given_before[sizeof given], room_before[sizeof room];
    memset(given_before, 0x5A, sizeof given_before);
    memset(room_before, 0xA5, sizeof room_before);
    check(line, "areas", areas_lent, 2);
    check(line, "given", areas[0] == given && lengths[0] == given_length, true);
    check(line, "room", areas[1] == room && lengths[1] == room_length, true);
    check(line, "given changed", memcmp(given, given_before, sizeof given) != 0, false);
    check(line, "room changed", memcmp(room, room_before, sizeof room) != 0, false);
    areas_lent = other_lengths = 0;
}

static void pack_of_bytes(void)
{
    size_t length;
    memset(given, 0x5A, sizeof given);
    memset(room, 0xA5, sizeof room);
    mb_pack(given, sizeof given, room, 1, &length, NULL);
    check_given(__LINE__, sizeof given, 1);
    mb_pack(given, 1, room, sizeof room, &length, NULL);
    check_given(__LINE__, 1, sizeof room);
    mb_unpack(given, sizeof given, room, 1, NULL);
    check_given(__LINE__, sizeof given, 1);
    mb_unpack(given, 1, room, sizeof room, NULL);
    check_given(__LINE__, 1, sizeof room);
}

static mb_image_setting image_setting(mb_image image)
{
    mb_image_setting setting;
    image.never_return = NEVER_RETURN;
    image.profile = PROFILE;
    setting = mb_image_setting_of(image, NULL, 0);
    setting.window_start = WINDOW_START;
    setting.window_end = WINDOW_END;
    return setting;
}

static void images_of_nothing(void)
{
    mb_image_setting setting = image_setting(mb_image_of(NULL, 0, NULL, 0));
    mb_record record = mb_fresh();
    mb_stopped stopped = mb_nothing_run();
    LENT(mb_image_build(&setting.image), BUILD_ANSWER, 2);
    LENT(mb_image_replace(&setting.image, NUMBER, NULL, 0), REPLACE_ANSWER, 3);
    LENT(mb_image_run(&setting, NUMBER, NULL, 0, &record, 0, &stopped), 0, 4);
    CHECK(stopped.position, IMAGE_RUN_POSITION);
    stopped = mb_nothing_run();
    LENT(mb_image_step(&setting, NUMBER, NULL, 0, &record, &stopped), 1, 4);
    CHECK(stopped.position, IMAGE_RUN_POSITION);
}

/* The image and the index of a call, of these lengths, are what given and room are lent as; then come the others. */
static void check_image(int line, size_t image_length, size_t index_length, uint32_t number)
{
    check(line, "areas", areas_lent, number);
    areas_lent = 2;
    check_given(line, image_length, index_length);
}

static void images_of_bytes(void)
{
    static uint8_t page[3], ram[5];
    const size_t image_length = sizeof given, index_length = sizeof room;
    mb_image_setting setting = image_setting(mb_image_of(given, image_length, room, index_length));
    mb_record record = mb_fresh();
    mb_stopped stopped = mb_nothing_run();
    memset(given, 0x5A, sizeof given);
    memset(room, 0xA5, sizeof room);
    mb_image_build(&setting.image);
    check_image(__LINE__, image_length, index_length, 2);
    mb_image_replace(&setting.image, NUMBER, page, sizeof page);
    CHECK(areas[2] == page && lengths[2] == sizeof page, true);
    check_image(__LINE__, image_length, index_length, 3);
    setting.external = page;
    setting.external_length = sizeof page;
    mb_image_run(&setting, NUMBER, ram, sizeof ram, &record, 0, &stopped);
    CHECK(areas[2] == ram && lengths[2] == sizeof ram, true);
    CHECK(areas[3] == page && lengths[3] == sizeof page, true);
    check_image(__LINE__, image_length, index_length, 4);
    mb_image_step(&setting, NUMBER, ram, sizeof ram, &record, &stopped);
    CHECK(areas[2] == ram && lengths[2] == sizeof ram, true);
    CHECK(areas[3] == page && lengths[3] == sizeof page, true);
    check_image(__LINE__, image_length, index_length, 4);
    CHECK(other_sets + other_profiles + other_windows + other_numbers, 0);
}

int main(void)
{
    mb_program program = mb_program_of(NULL, 0);
    mb_setting setting;
    mb_record record = mb_fresh();
    mb_stopped stopped = mb_nothing_run();
    mb_reading reading;
    mb_refused refused = {99, 99};
    mb_base base;
    uint32_t count;
    program.never_return = NEVER_RETURN;
    program.profile = PROFILE;
    setting = mb_setting_of(program, NULL, 0);
    setting.window_start = WINDOW_START;
    setting.window_end = WINDOW_END;
    LENT(mb_count(&program, &count), 0, 1);
    LENT(mb_read_bundle(&program, 0, &reading), 0, 1);
    LENT(mb_validate(&setting, 0, &base), 0, 1);
    LENT(mb_store(&record, NULL, 0, NULL), 0, 1);
    LENT(mb_load(NULL, 0, &record, NULL), 0, 1);
    LENT(mb_store(&record, NULL, 0, &refused), 0, 1);
    CHECK(refused.number, 0);
    CHECK(refused.position, STORE_POSITION);
    refused.number = 99;
    LENT(mb_load(NULL, 0, &record, &refused), 0, 1);
    CHECK(refused.number, 0);
    CHECK(refused.position, LOAD_POSITION);
    LENT(mb_run(&setting, NULL, 0, &record, 0, &stopped), 0, 3);
    CHECK(stopped.position, RUN_POSITION);
    stopped = mb_nothing_run();
    LENT(mb_step(&setting, NULL, 0, &record, &stopped), 1, 3);
    CHECK(stopped.position, RUN_POSITION);
    pack_of_nothing();
    pack_of_bytes();
    images_of_nothing();
    images_of_bytes();
    return outcome("lent.c");
}
