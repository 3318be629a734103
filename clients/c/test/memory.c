/* Want of memory: the world is spent, which each later line says too, and a closed handle may be opened again. */
#define _XOPEN_SOURCE 700
#include "answers.h"
#include <stdio.h>
#include <string.h>
#include <sys/resource.h>

/* A page of 2,000,000 characters needs more. */
enum { SIGNS = 2000000, LIMIT = 100 * 1000 * 1000 };

/* The line that opens such a page. */
static char *line_of(size_t *length)
{
    const char *head = "{\"do\":\"open\",\"page\":\"<p>", *tail = "</p>\"}";
    char *line = malloc(strlen(head) + SIGNS + strlen(tail));
    if (!line)
        exit(2);
    memcpy(line, head, strlen(head));
    memset(line + strlen(head), 'a', SIGNS);
    memcpy(line + strlen(head) + SIGNS, tail, strlen(tail));
    *length = strlen(head) + SIGNS + strlen(tail);
    return line;
}

/* Whether a line is answered with this status and text. */
static bool gives(vemodel_handle *world, const char *line, size_t length, uint32_t status, const char *text)
{
    answer reply = NO_ANSWER;
    uint32_t got = answer_line(world, line, length, &reply);
    bool is = got == status && reply.length == strlen(text) && memcmp(reply.bytes, text, reply.length) == 0;
    free(reply.bytes);
    if (!is)
        fprintf(stderr, "memory.c: not %s (status %u)\n", text, got);
    return is;
}

int main(void)
{
    vemodel_handle world = VEMODEL_CLOSED;
    size_t length;
    char *line = line_of(&length);
    const char *html = "{\"do\":\"html\"}";
    struct rlimit before, little;
    bool well = vemodel_open(&world);

    if (getrlimit(RLIMIT_AS, &before))
        return 2;
    little = before;
    little.rlim_cur = LIMIT;
    if (setrlimit(RLIMIT_AS, &little))
        return 2;
    well = gives(&world, html, strlen(html), VEMODEL_DONE, "no not_open") && well;
    well = gives(&world, line, length, VEMODEL_MEMORY, "") && well;
    well = gives(&world, html, strlen(html), VEMODEL_MEMORY, "") && well;
    if (setrlimit(RLIMIT_AS, &before))
        return 2;
    well = gives(&world, html, strlen(html), VEMODEL_MEMORY, "") && world.is_open && well;
    vemodel_close(&world);
    well = vemodel_open(&world) && well;
    well = gives(&world, line, length, VEMODEL_DONE, "ok 2000004") && well;
    vemodel_close(&world);
    free(line);
    return !well;
}
