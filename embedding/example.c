/*
 * The line engine from C, on the folder of a sample: its table is checked, its steps are run and printed, and the table is written
 * back. Then calls without bytes or room and with buffers that are too short are refused, and two tables by a place on a route.
 * Argument: the folder.
 */
#include "lineengine.h"

#include <stdio.h>
#include <string.h>

/* The longest list of steps that this program takes. */
#define MOST_STEPS 1000

static uint8_t table[LINEENGINE_MOST_TABLE + 1], back[LINEENGINE_MOST_TABLE + 1];
static uint8_t steps[3 * MOST_STEPS], answers[MOST_STEPS];
static uint8_t text[LINEENGINE_TEXT_ROOM(MOST_STEPS)];
/* Where a table is refused; every call that takes them sets both. */
static uint8_t train, place;

/* Reads a file of the folder; what does not fit is left out. */
static size_t load(const char *folder, const char *name, uint8_t *bytes, size_t room)
{
    char path[4096];
    snprintf(path, sizeof path, "%s/%s", folder, name);
    FILE *file = fopen(path, "rb");
    if (file == NULL)
        return 0;
    size_t length = fread(bytes, 1, room, file);
    fclose(file);
    return length;
}

static void run_and_print(size_t table_length, size_t steps_length)
{
    size_t count = LINEENGINE_STEPS(steps_length), accepted = 0, text_length = 0;
    printf("run: %d\n", lineengine_run(table, table_length, steps, steps_length, answers, count, &train, &place));
    printf("codes:");
    for (size_t i = 0; i < count; i++) {
        printf(" %d", answers[i]);
        accepted += answers[i] == LINEENGINE_ACCEPTED;
    }
    printf("\naccepted: %zu of %zu\n", accepted, count);
    printf("print: %d\n", lineengine_print(table, table_length, steps, steps_length, answers, count,
                                           text, LINEENGINE_TEXT_ROOM(count), &text_length));
    fwrite(text, 1, text_length, stdout);
}

static void write_back(size_t table_length)
{
    printf("write back: %d\n", lineengine_write_back(table, table_length, back, table_length, &train, &place));
    printf("same bytes: %s\n", memcmp(table, back, table_length) == 0 ? "yes" : "no");
}

/* No table, no steps, no room: with length 0 a pointer may be NULL. Those to the text's length, train and place have no length. */
static void nothing_passed(size_t table_length, size_t steps_length)
{
    size_t length = 99;
    printf("without a table: %d %d %d\n", lineengine_check(NULL, 0, &train, &place),
           lineengine_run(NULL, 0, steps, steps_length, answers, sizeof answers, &train, &place),
           lineengine_write_back(NULL, 0, back, sizeof back, &train, &place));
    printf("run without steps: %d %d\n", lineengine_run(table, table_length, NULL, 0, answers, sizeof answers, &train, &place),
           lineengine_run(table, table_length, NULL, 0, NULL, 0, &train, &place));
    printf("without room: %d %d %d %d\n", lineengine_run(table, table_length, steps, steps_length, NULL, 0, &train, &place),
           lineengine_print(table, table_length, steps, steps_length, NULL, 0, text, sizeof text, &length),
           lineengine_print(table, table_length, steps, steps_length, answers, sizeof answers, NULL, 0, &length),
           lineengine_write_back(table, table_length, NULL, 0, &train, &place));
    if (length != 99)
        printf("the length of a refused printout is now %zu\n", length);
    printf("print without a table and steps: %d\n", lineengine_print(NULL, 0, NULL, 0, NULL, 0, text, sizeof text, &length));
    fwrite(text, 1, length, stdout);
    printf("print without steps: %d\n", lineengine_print(table, table_length, NULL, 0, NULL, 0, text, sizeof text, &length));
    fwrite(text, 1, length, stdout);
}

/* What a call has answered. Train and place are read after the call, not among the arguments beside it. */
static void tell(const char *call, uint8_t code)
{
    printf("%s: %d, train %d, place %d\n", call, code, train, place);
}

/* Refusals leave all memory that was passed as it was, train and place excepted. */
static void refusals(size_t table_length, size_t steps_length)
{
    size_t count = LINEENGINE_STEPS(steps_length), length = 99;
    memset(answers, 99, count);
    tell("answers too short", lineengine_run(table, table_length, steps, steps_length, answers, count - 1, &train, &place));
    printf("text too short: %d\n", lineengine_print(table, table_length, steps, steps_length, answers, count,
                                                    text, LINEENGINE_TEXT_ROOM(count) - 1, &length));
    if (length != 99)
        printf("the length of a refused printout is now %zu\n", length);
    tell("buffer too short", lineengine_write_back(table, table_length, back, table_length - 1, &train, &place));
    tell("no mark", lineengine_check(table + 1, table_length - 1, &train, &place));
}

/* The last byte of a table is the last segment on the route of its last train, here one of several segments. */
static void refused_routes(size_t table_length, size_t steps_length)
{
    size_t count = LINEENGINE_STEPS(steps_length), length = 0;
    uint8_t segments = table[5], *last = &table[table_length - 1], segment = *last;
    memset(answers, 99, count);
    *last = segments + 1;
    tell("a segment that there is not", lineengine_check(table, table_length, &train, &place));
    *last = table[table_length - 2];
    tell("a segment twice", lineengine_check(table, table_length, &train, &place));
    tell("run", lineengine_run(table, table_length, steps, steps_length, answers, count, &train, &place));
    printf("first answer still: %d\n", answers[0]);
    tell("write back", lineengine_write_back(table, table_length, back, table_length, &train, &place));
    printf("print: %d\n", lineengine_print(table, table_length, steps, steps_length, answers, count,
                                           text, LINEENGINE_TEXT_ROOM(count), &length));
    fwrite(text, 1, length, stdout);
    *last = segment;
    tell("as it was", lineengine_check(table, table_length, &train, &place));
}

int main(int argc, char **argv)
{
    const char *folder = argc > 1 ? argv[1] : ".";
    size_t table_length = load(folder, "net", table, sizeof table);
    size_t steps_length = load(folder, "steps", steps, sizeof steps);
    uint8_t code = lineengine_check(table, table_length, &train, &place);
    printf("interface %d.%d\n", LINEENGINE_VERSION_MAJOR, LINEENGINE_VERSION_MINOR);
    printf("check: %d\n", code);
    if (code != LINEENGINE_ACCEPTED || steps_length == 0)
        return 1;
    run_and_print(table_length, steps_length);
    write_back(table_length);
    nothing_passed(table_length, steps_length);
    refusals(table_length, steps_length);
    refused_routes(table_length, steps_length);
    return 0;
}
