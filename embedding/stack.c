/*
 * How many bytes of stack each function of the library takes on the folder of a sample: a thread with a marked stack calls it once, and
 * the marks that are gone are counted, less those that a thread without a call takes. Exit status 1 where they are more than
 * LINEENGINE_STACK. Argument: the folder.
 */
#define _POSIX_C_SOURCE 200809L
#include "lineengine.h"

#include <pthread.h>
#include <stdio.h>
#include <string.h>

#define ROOM (1 << 20)
#define MARK 0xA5
#define MOST_STEPS 1000

static uint8_t stack[ROOM] __attribute__((aligned(4096)));
static uint8_t table[LINEENGINE_MOST_TABLE + 1], back[LINEENGINE_MOST_TABLE + 1];
static uint8_t steps[3 * MOST_STEPS], answers[MOST_STEPS];
static uint8_t text[LINEENGINE_TEXT_ROOM(MOST_STEPS)];
static size_t table_length, steps_length, text_length;
static uint8_t code, train, place;

static void *nothing(void *none)
{
    return none;
}

static void *check(void *none)
{
    code = lineengine_check(table, table_length, &train, &place);
    return none;
}

static void *run(void *none)
{
    code = lineengine_run(table, table_length, steps, steps_length, answers, sizeof answers, &train, &place);
    return none;
}

static void *print(void *none)
{
    code = lineengine_print(table, table_length, steps, steps_length, answers, sizeof answers, text, sizeof text, &text_length);
    return none;
}

static void *write_back(void *none)
{
    code = lineengine_write_back(table, table_length, back, sizeof back, &train, &place);
    return none;
}

/* The bytes of stack that a thread takes. */
static size_t taken(void *(*call)(void *))
{
    pthread_attr_t attributes;
    pthread_t thread;
    size_t unmarked = 0;
    memset(stack, MARK, ROOM);
    pthread_attr_init(&attributes);
    if (pthread_attr_setstack(&attributes, stack, ROOM) != 0 || pthread_create(&thread, &attributes, call, NULL) != 0)
        return 0;
    pthread_join(thread, NULL);
    pthread_attr_destroy(&attributes);
    while (unmarked < ROOM && stack[unmarked] == MARK)
        unmarked++;
    return ROOM - unmarked;
}

static size_t load(const char *folder, const char *name, uint8_t *bytes, size_t room)
{
    char path[4096];
    snprintf(path, sizeof path, "%s/%s", folder, name);
    FILE *file = fopen(path, "rb");
    size_t length = file == NULL ? 0 : fread(bytes, 1, room, file);
    if (file != NULL)
        fclose(file);
    return length;
}

int main(int argc, char **argv)
{
    const char *folder = argc > 1 ? argv[1] : ".";
    void *(*calls[])(void *) = {check, run, print, write_back};
    const char *names[] = {"lineengine_check", "lineengine_run", "lineengine_print", "lineengine_write_back"};
    table_length = load(folder, "net", table, sizeof table);
    steps_length = load(folder, "steps", steps, sizeof steps);
    size_t least = taken(nothing), most = 0;
    for (int i = 0; i < 4; i++) {
        size_t bytes = taken(calls[i]) - least;
        printf("%-22s %d %6zu\n", names[i], code, bytes);
        most = bytes > most ? bytes : most;
    }
    return most > LINEENGINE_STACK;
}
