/* Memory: 10,000 worlds that are opened and closed take no more than the first 1,000 of them did. */
#define _XOPEN_SOURCE 700
#include "answers.h"
#include <stdio.h>
#include <string.h>
#include <sys/resource.h>

/* The least piece that malloc hands out has 32 bytes: were one forgotten for each world, that would add 281 KiB. */
enum { FIRST = 1000, WORLDS = 10000, MAY_ADD = 128 };

/* A world's lines: two sites that edit, undo, meet and are refused. */
static const char *const lines[] = {
    "{\"do\":\"open\",\"page\":\"<p id=\\\"x\\\">one <b>two</b></p><ul><li>three</li></ul>\",\"sites\":2}",
    "{\"do\":\"text\",\"at\":2,\"text\":\"a\"}",
    "{\"do\":\"wrap\",\"from\":0,\"to\":9,\"wrap_outer\":[{\"kind\":\"div\"}]}",
    "{\"do\":\"undo\"}",
    "{\"do\":\"text\",\"at\":999,\"text\":\"a\"}",
    "{\"do\":\"send\"}",
    "{\"do\":\"serve\"}",
    "{\"do\":\"take\",\"site\":1}",
    "{\"do\":\"html\",\"site\":1}",
};

/* Opens a world, answers the first lines and closes it. */
static bool lives(size_t count)
{
    vemodel_handle world = VEMODEL_CLOSED;
    answer reply = NO_ANSWER;
    bool well = vemodel_open(&world);
    for (size_t i = 0; well && i < count; i++)
        well = answer_line(&world, lines[i], strlen(lines[i]), &reply) == VEMODEL_DONE;
    vemodel_close(&world);
    free(reply.bytes);
    return well;
}

/* The most memory so far, in KiB. */
static long peak(void)
{
    struct rusage used;
    if (getrusage(RUSAGE_SELF, &used))
        exit(2);
    return used.ru_maxrss;
}

int main(void)
{
    size_t all = sizeof lines / sizeof *lines;
    long first = 0;
    for (int i = 0; i < WORLDS; i++) {
        if (!lives((size_t)i % (all + 1))) {
            fprintf(stderr, "worlds.c: a world isn't opened, or a line of it isn't answered\n");
            return 1;
        }
        if (i + 1 == FIRST)
            first = peak();
    }
    if (peak() - first > MAY_ADD) {
        fprintf(stderr, "worlds.c: %d worlds add %ld KiB\n", WORLDS - FIRST, peak() - first);
        return 1;
    }
    return 0;
}
