/* A loop of arithmetic for tests/cost: `cost page` writes the page, `cost N` runs it through the library with budget N. */
#include <stdio.h>
#include <stdlib.h>
#include <string.h>
#include "marshbodkin.h"

/* The benchmark's arithmetic page: adds, shifts, products, a division, a compare and a branch back. */
static const uint16_t halfwords[] = {
    0xF241, 0x2034, 0x2107, 0x22C8,
    0x1843, 0x405C, 0x00E5, 0x434A, 0x1843, 0x405C, 0x08E5, 0x434A, 0x1843, 0x405C, 0x10E5, 0x434A,
    0x1843, 0x405C, 0x00E5, 0x434A, 0x1843, 0x405C, 0x08E5, 0x434A, 0x1843, 0x405C, 0x10E5, 0x434A,
    0xFBB0, 0xF6F1, 0x42A3, 0xE7DF,
};

int main(int count, char **words) {
    static uint8_t page[2 * sizeof halfwords / sizeof *halfwords], ram[MB_RAM_BYTES];
    for (size_t i = 0; i < sizeof halfwords / sizeof *halfwords; i++) {
        page[2 * i] = (uint8_t)(halfwords[i] & 0xFF);
        page[2 * i + 1] = (uint8_t)(halfwords[i] >> 8);
    }
    if (count != 2) {
        return 2;
    }
    if (strcmp(words[1], "page") == 0) {
        return fwrite(page, 1, sizeof page, stdout) == sizeof page ? 0 : 1;
    }
    uint32_t budget = (uint32_t)strtoul(words[1], NULL, 10);
    mb_setting setting = mb_setting_of(mb_program_of(page, sizeof page), NULL, 0);
    mb_record record = mb_fresh();
    mb_stopped stopped = mb_nothing_run();
    uint32_t code = mb_run(&setting, ram, sizeof ram, &record, budget, &stopped);
    return code == MB_ACCEPTED && stopped.kind == MB_STOP_BUDGET && stopped.steps == budget ? 0 : 1;
}
