/* Two threads with a world each, and one world that two threads step in turn: threads SCRIPT REPLIES */
#define _POSIX_C_SOURCE 200809L
#include "answers.h"
#include <pthread.h>
#include <stdio.h>
#include <string.h>

enum { ROUNDS = 20 };

/* The lines of a file, whose newlines are taken away. */
typedef struct {
    char *text;
    char **lines;
    size_t count;
} file;

static file script, replies;

static file lines_of(const char *path)
{
    file it = { NULL, NULL, 0 };
    size_t room = 0;
    FILE *from = fopen(path, "rb");
    if (!from || getdelim(&it.text, &room, EOF, from) < 0)
        exit(2);
    fclose(from);
    for (char *line = strtok(it.text, "\n"); line; line = strtok(NULL, "\n")) {
        it.lines = realloc(it.lines, (it.count + 1) * sizeof *it.lines);
        if (!it.lines)
            exit(2);
        it.lines[it.count++] = line;
    }
    return it;
}

/* Some lines of the script, and how many of them were answered otherwise. */
typedef struct {
    vemodel_handle *world;
    size_t from, to, wrong;
} part;

static void answer_part(part *it)
{
    answer reply = NO_ANSWER;
    for (size_t i = it->from; i < it->to; i++) {
        const char *wanted = replies.lines[i];
        uint32_t status = answer_line(it->world, script.lines[i], strlen(script.lines[i]), &reply);
        if (status != VEMODEL_DONE || reply.length != strlen(wanted) || memcmp(reply.bytes, wanted, reply.length) != 0)
            it->wrong++;
    }
    free(reply.bytes);
}

/* A world of the thread's own at each round. */
static void *answer_alone(void *given)
{
    part *it = given;
    for (int round = 0; round < ROUNDS; round++) {
        vemodel_handle world = VEMODEL_CLOSED;
        it->world = &world;
        if (!vemodel_open(&world))
            it->wrong++;
        answer_part(it);
        vemodel_close(&world);
    }
    return NULL;
}

/* A part of the script on a world that another thread has opened. */
static void *answer_on(void *given)
{
    answer_part(given);
    return NULL;
}

int main(int argc, char **argv)
{
    pthread_t threads[2];
    vemodel_handle world = VEMODEL_CLOSED;
    size_t wrong = 0;
    if (argc != 3)
        return 2;
    script = lines_of(argv[1]);
    replies = lines_of(argv[2]);
    if (script.count != replies.count || script.count < 2)
        return 2;

    part all[2] = { { NULL, 0, script.count, 0 }, { NULL, 0, script.count, 0 } };
    for (int i = 0; i < 2; i++)
        if (pthread_create(&threads[i], NULL, answer_alone, &all[i]))
            return 2;
    for (int i = 0; i < 2; i++)
        pthread_join(threads[i], NULL);

    part halves[2] = { { &world, 0, script.count / 2, 0 }, { &world, script.count / 2, script.count, 0 } };
    if (!vemodel_open(&world))
        return 2;
    for (int i = 0; i < 2; i++) {
        if (pthread_create(&threads[i], NULL, answer_on, &halves[i]))
            return 2;
        pthread_join(threads[i], NULL);
    }
    vemodel_close(&world);

    for (int i = 0; i < 2; i++)
        wrong += all[i].wrong + halves[i].wrong;
    if (wrong)
        fprintf(stderr, "threads.c: %zu replies differ\n", wrong);
    for (file *it = &script; it; it = it == &script ? &replies : NULL) {
        free(it->lines);
        free(it->text);
    }
    return wrong != 0;
}
