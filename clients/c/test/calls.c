/* Each call at its edges: handles that are closed, open and open again, and buffers with less room than the reply needs. And the library's
   version, which is VERSION. */
#include "vemodel.h"
#include <stdio.h>
#include <string.h>

static int failed;

#define CHECK(holds) \
    do { \
        if (!(holds)) { \
            fprintf(stderr, "calls.c:%d: %s\n", __LINE__, #holds); \
            failed = 1; \
        } \
    } while (0)

static vemodel_stepped step(vemodel_handle *world, const char *line)
{
    return vemodel_step(world, (const uint8_t *)line, strlen(line));
}

/* Whether the reply to a line is this text. */
static bool replies(vemodel_handle *world, const char *line, const char *text)
{
    uint8_t room[128];
    vemodel_stepped stepped = step(world, line);
    size_t length = vemodel_reply(world, room, sizeof room);
    return stepped.status == VEMODEL_DONE && stepped.length == length && length == strlen(text)
        && memcmp(room, text, length) == 0;
}

static void closed_handles(void)
{
    vemodel_handle world = VEMODEL_CLOSED;
    uint8_t room[4] = "abc";
    vemodel_stepped stepped = step(&world, "{\"do\":\"html\"}");
    CHECK(stepped.status == VEMODEL_NOT_OPEN && stepped.length == 0);
    CHECK(vemodel_reply(&world, room, sizeof room) == 0 && memcmp(room, "abc", 4) == 0);
    vemodel_close(&world);
    CHECK(!world.is_open && world.at == NULL);
}

static void open_handles(void)
{
    vemodel_handle world;
    memset(&world, 0, sizeof world);
    CHECK(vemodel_open(&world) && world.is_open);
    CHECK(replies(&world, "{\"do\":\"html\"}", "no not_open"));
    CHECK(replies(&world, "{\"do\":\"open\",\"page\":\"<p>ab</p>\"}", "ok 6"));
    CHECK(!vemodel_open(&world)); /* and the page is still there */
    CHECK(replies(&world, "{\"do\":\"html\"}", "ok \"<p>ab</p>\""));
    CHECK(replies(&world, "", "no bad_json"));
    CHECK(replies(&world, "{\"do\":\n\"html\"}", "ok \"<p>ab</p>\"")); /* white space, and still one line */
    vemodel_close(&world);
    CHECK(!world.is_open);
    vemodel_close(&world);
    CHECK(step(&world, "{\"do\":\"html\"}").status == VEMODEL_NOT_OPEN);
    CHECK(vemodel_open(&world)); /* a new world */
    CHECK(vemodel_reply(&world, (uint8_t *)&(char){ 0 }, 1) == 0);
    CHECK(replies(&world, "{\"do\":\"html\"}", "no not_open"));
    vemodel_close(&world);
}

static void rooms(void)
{
    vemodel_handle world = VEMODEL_CLOSED;
    uint8_t room[12];
    CHECK(vemodel_open(&world));
    CHECK(step(&world, "{\"do\":\"html\"}").length == 11);
    memset(room, '.', sizeof room);
    CHECK(vemodel_reply(&world, room, 0) == 0 && room[0] == '.');
    CHECK(vemodel_reply(&world, room, 3) == 3 && memcmp(room, "no ....", 7) == 0);
    CHECK(vemodel_reply(&world, room, 11) == 11 && memcmp(room, "no not_open.", 12) == 0);
    CHECK(vemodel_reply(&world, room, 12) == 11 && memcmp(room, "no not_open.", 12) == 0);
    vemodel_close(&world);
}

/* An open handle may be moved, as long as one of the two places is used. */
static void moved(void)
{
    vemodel_handle here = VEMODEL_CLOSED, there;
    CHECK(vemodel_open(&here));
    CHECK(replies(&here, "{\"do\":\"open\",\"page\":\"<p>ab</p>\"}", "ok 6"));
    there = here;
    here = (vemodel_handle)VEMODEL_CLOSED;
    CHECK(replies(&there, "{\"do\":\"html\"}", "ok \"<p>ab</p>\""));
    vemodel_close(&there);
}

int main(void)
{
    closed_handles();
    open_handles();
    rooms();
    moved();
    CHECK(vemodel_version() == VERSION);
    return failed;
}
