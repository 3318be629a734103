/* Answers the lines of standard input on standard output, as `vemodel run` does, but over the library. */
#define _POSIX_C_SOURCE 200809L
#include "answers.h"
#include <stdio.h>
#include <sys/types.h>

int main(void)
{
    vemodel_handle world = VEMODEL_CLOSED;
    answer reply = NO_ANSWER;
    char *line = NULL;
    size_t room = 0;
    ssize_t length;
    uint32_t status = vemodel_open(&world) ? VEMODEL_DONE : VEMODEL_MEMORY;

    while (status == VEMODEL_DONE && (length = getline(&line, &room, stdin)) > 0) {
        if (line[length - 1] == '\n')
            length--;
        status = answer_line(&world, line, (size_t)length, &reply);
        if (status == VEMODEL_DONE) {
            fwrite(reply.bytes, 1, reply.length, stdout);
            putchar('\n');
        }
    }
    vemodel_close(&world);
    free(line);
    free(reply.bytes);
    return status == VEMODEL_DONE ? 0 : 6;
}
