/* A reply that is fetched into a buffer of the caller's, which grows. */
#ifndef ANSWERS_H
#define ANSWERS_H
#include "vemodel.h"
#include <stdlib.h>

typedef struct {
    uint8_t *bytes;
    size_t room, length;
} answer;

#define NO_ANSWER { NULL, 0, 0 }

/* Steps, fetches the reply, and returns the status. */
static uint32_t answer_line(vemodel_handle *world, const char *line, size_t length, answer *reply)
{
    vemodel_stepped stepped = vemodel_step(world, (const uint8_t *)line, length);
    if (stepped.length >= reply->room) {
        uint8_t *more = realloc(reply->bytes, stepped.length + 1);
        if (!more)
            return VEMODEL_MEMORY;
        reply->bytes = more;
        reply->room = stepped.length + 1;
    }
    reply->length = vemodel_reply(world, reply->bytes, reply->room);
    return stepped.status;
}
#endif
