#ifndef VEMODEL_H
#define VEMODEL_H
/*
 * vemodel, the proved document core of a rich text editor, in a program's own process. A handle has a world, which
 * answers lines one by one as `vemodel run` does. docs/FORMAT.md says what lines ask and what they are answered.
 *
 * Who owns what
 *   The caller owns the handle (16 bytes), each line and each buffer. The library owns what stands behind an open handle:
 *   the world and its last reply. Their memory comes from malloc, and vemodel_close gives it back. The library hands out
 *   no pointer of its own, and keeps none of the caller's after a call.
 *
 * A handle
 *   It begins as VEMODEL_CLOSED, all bytes 0, and only these functions change it. It may lie anywhere, but an open one
 *   is in one place: who moves its bytes uses the old ones no more. A copy would use what the other has freed.
 *
 * Threads
 *   Worlds share nothing, so calls with different handles may run at once. One handle is for one call at a time. It may
 *   go from thread to thread, where a lock, or the start or the end of a thread, orders the calls. There is no call from
 *   a signal handler, nor in the child of a process with threads that forked.
 *
 * Errors
 *   A refusal is a reply, `no ..`, and changes nothing. What else can happen is told by the results below: there is no
 *   errno, no abort and no output. A world has no end at 64 MiB of lines, as the program has.
 *
 * What calls cost (measured; no proof bounds time or stack)
 *   To open and close a world takes some 40 ns. A step takes what its line asks for: bench/cells of the repository measures that. A
 *   reply is copied, and nothing is allocated for it. To close a page of 20,000 paragraphs takes some 2 ms, for it is freed in pieces.
 *   Threads with 48 KiB of stack answer the lines of a plain page. 144 KiB are enough for 98 nodes in one another, and no script of the
 *   tests needed more than 160 KiB: give a thread 256 KiB.
 *
 * The shared library of the release needs glibc 2.14 or later. Pointers are never null, also where the length is 0.
 */
#include <stdbool.h>
#include <stddef.h>
#include <stdint.h>

#ifdef __cplusplus
extern "C" {
#endif

typedef struct {
    void *at;
    bool is_open;
} vemodel_handle;

#define VEMODEL_CLOSED { NULL, false }

enum {
    VEMODEL_DONE = 0,     /* the line is answered */
    VEMODEL_MEMORY = 1,   /* there was no memory, and the world is spent */
    VEMODEL_NOT_OPEN = 2, /* the handle is closed */
};

typedef struct {
    uint32_t status; /* one of these three */
    size_t length;   /* how many bytes the reply has; 0 where there is none */
} vemodel_stepped;

/* Opens a closed handle with a world without a page. False where the handle was open, or where there was no memory; the
   handle is then as it was. */
bool vemodel_open(vemodel_handle *handle);

/* Answers a line, which has no newline at its end, and keeps the reply until the next line. After VEMODEL_MEMORY the world
   has no page, and each later line gets VEMODEL_MEMORY: close the handle. */
vemodel_stepped vemodel_step(vemodel_handle *handle, const uint8_t *line, size_t length);

/* Copies the first bytes of the last reply, as many as there is room for, and tells how many these are: the lesser of the
   reply's length and the room. No newline and no 0 comes after them, and the reply stays. */
size_t vemodel_reply(vemodel_handle *handle, uint8_t *out, size_t room);

/* Closes a handle, and frees what stood behind it. A closed handle stays as it is, and may be opened again. */
void vemodel_close(vemodel_handle *handle);

/* The library's version: 65,536 times its first number, 256 times its second, and its third. So 0.1.2 is 0x000102. */
uint32_t vemodel_version(void);

#ifdef __cplusplus
}
#endif
#endif
