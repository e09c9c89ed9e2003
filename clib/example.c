/* Prints what a recorded class list has: example TAPE */
#include <inttypes.h>
#include <stdio.h>

#include "outlets.h"

static uint8_t tape[1 << 16];
static uint8_t arena[4096];

static void print_class(size_t length, int32_t class_number)
{
    uint8_t outlet[64] = {0};
    int64_t found = outlets_find(tape, length, arena, sizeof arena, class_number, outlet, sizeof outlet);
    if (found == OUTLETS_NO_SUCH_CLASS)
        printf("class %" PRId32 ": not shown\n", class_number);
    else if (found < 0)
        printf("class %" PRId32 ": refusal %" PRId64 "\n", class_number, -found);
    else if ((uint64_t)found > sizeof outlet)
        printf("class %" PRId32 ": an outlet of %" PRId64 " bytes\n", class_number, found);
    else
        printf("class %" PRId32 ": %.*s\n", class_number, (int)found, (const char *)outlet);
}

/* What is refused, and what does not fit. */
static void print_limits(size_t length)
{
    struct outlets_tape_size size = {0};
    uint8_t one[1] = {'-'};
    printf("a byte less: %" PRId32 "\n", outlets_tape_size(tape, length - 1, &size));
    printf("an arena of 6 bytes: %" PRId64 "\n", outlets_find(tape, length, arena, 6, 7, one, sizeof one));
    printf("a buffer of 1 byte: %" PRId64, outlets_find(tape, length, arena, sizeof arena, 7, one, sizeof one));
    printf(", and it holds %c\n", one[0]);
}

int main(int argc, char **argv)
{
    struct outlets_tape_size size = {0};
    struct outlets_row_counts counts = {0};
    FILE *file = argc == 2 ? fopen(argv[1], "rb") : NULL;
    if (!file) {
        fprintf(stderr, "example: name a tape that can be read\n");
        return 1;
    }
    size_t length = fread(tape, 1, sizeof tape, file);
    fclose(file);
    int32_t refused = outlets_tape_size(tape, length, &size);
    if (!refused)
        refused = outlets_count(tape, length, arena, sizeof arena, &counts);
    if (refused) {
        fprintf(stderr, "example: refusal %" PRId32 "\n", -refused);
        return 1;
    }
    printf("%zu columns, %zu events\n", size.columns, size.events);
    printf("%" PRIu64 " rows shown, %" PRIu64 " refused, %" PRIu64 " failures\n", counts.shown, counts.refused, counts.failures);
    for (int32_t class_number = 1; class_number <= 9; class_number++)
        print_class(length, class_number);
    print_limits(length);
    return 0;
}
