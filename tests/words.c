/* Prints the words of numbers 0 to 300 that have any, as lines of docs/MACHINE.md's table "Words". */
#include "marshbodkin.h"

#include <stdio.h>
#include <string.h>

static void print_words(const char *of, const char *(*words)(uint32_t))
{
    for (uint32_t number = 0; number <= 300; number++)
        if (strcmp(words(number), "unknown") != 0)
            printf("| %s | %u | %s |\n", of, number, words(number));
}

int main(void)
{
    print_words("refusal", mb_refusal_words);
    print_words("field", mb_field_words);
    print_words("fault", mb_fault_words);
    print_words("stop", mb_stop_words);
    print_words("exit", mb_exit_words);
    return 0;
}
