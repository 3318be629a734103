/* A thread with the stack that vemodel.h asks for answers the lines of a page whose nodes stand as deep in one another as they may. */
#define _XOPEN_SOURCE 700
#include "answers.h"
#include <pthread.h>
#include <stdio.h>
#include <string.h>

enum { STACK = 256 * 1024, DEEP = 98 };

static const char *const lines[] = {
    "{\"do\":\"text\",\"at\":98,\"text\":\"a\"}", "{\"do\":\"split\",\"at\":99}", "{\"do\":\"undo\"}", "{\"do\":\"html\"}", "{\"do\":\"data\"}", "{\"do\":\"tree\"}",
};

/* The line that opens the page: so many nodes, of which the last is a paragraph. */
static void deep_page(char *line)
{
    line += sprintf(line, "{\"do\":\"open\",\"page\":\"");
    for (int i = 1; i < DEEP; i++)
        line += sprintf(line, "<div>");
    line += sprintf(line, "<p>x</p>");
    for (int i = 1; i < DEEP; i++)
        line += sprintf(line, "</div>");
    sprintf(line, "\"}");
}

/* Whether a line is answered by `ok ..`. */
static bool is_ok(vemodel_handle *world, const char *line)
{
    answer reply = NO_ANSWER;
    bool is = answer_line(world, line, strlen(line), &reply) == VEMODEL_DONE && reply.length > 1 && memcmp(reply.bytes, "ok", 2) == 0;
    if (!is)
        fprintf(stderr, "stack.c: %s is answered by %.*s\n", line, (int)reply.length, (const char *)reply.bytes);
    free(reply.bytes);
    return is;
}

static void *answer_all(void *failed)
{
    vemodel_handle world = VEMODEL_CLOSED;
    char open[16 * DEEP];
    bool well = vemodel_open(&world);
    deep_page(open);
    well = well && is_ok(&world, open);
    for (size_t i = 0; well && i < sizeof lines / sizeof *lines; i++)
        well = is_ok(&world, lines[i]);
    vemodel_close(&world);
    return well ? NULL : failed;
}

int main(void)
{
    pthread_t thread;
    pthread_attr_t attributes;
    static char failed;
    void *result;
    if (pthread_attr_init(&attributes) || pthread_attr_setstacksize(&attributes, STACK)
        || pthread_create(&thread, &attributes, answer_all, &failed) || pthread_join(thread, &result))
        return 2;
    return result != NULL;
}
