/*
 * The native half: the library's six functions, each carried out by the bridge in an emulator. The build says where
 * EMULATOR, LOADER, LIBRARIES and BRIDGE are.
 */
#define _GNU_SOURCE
#include <fcntl.h>
#include <pthread.h>
#include <stdio.h>
#include <stdlib.h>
#include <unistd.h>

#include "call.h"
#include "consent.h"

static pthread_mutex_t one_at_a_time = PTHREAD_MUTEX_INITIALIZER;
static int to_bridge = -1, from_bridge = -1;

static _Noreturn void fail(const char *what)
{
    perror(what);
    abort();
}

static void start(void)
{
    int asked[2], answered[2];
    if (pipe2(asked, O_CLOEXEC) != 0 || pipe2(answered, O_CLOEXEC) != 0)
        fail("no pipe to the bridge");
    pid_t child = fork();
    if (child < 0)
        fail("no process for the bridge");
    if (child == 0) {
        if (dup2(asked[0], 0) < 0 || dup2(answered[1], 1) < 0)
            fail("no pipe in the bridge");
        execl(EMULATOR, EMULATOR, LOADER, "--library-path", LIBRARIES, BRIDGE, (char *)NULL);
        fail(EMULATOR);
    }
    close(asked[0]);
    close(answered[1]);
    to_bridge = asked[1];
    from_bridge = answered[0];
}

static void give(const void *from, size_t count)
{
    for (size_t gone = 0; gone < count;) {
        ssize_t more = write(to_bridge, (const char *)from + gone, count - gone);
        if (more <= 0)
            fail("the bridge takes no more");
        gone += (size_t)more;
    }
}

static void take(void *to, size_t count)
{
    for (size_t have = 0; have < count;) {
        ssize_t more = read(from_bridge, (char *)to + have, count - have);
        if (more <= 0)
            fail("the bridge gives no more");
        have += (size_t)more;
    }
}

/* One call, there and back. */
static uint64_t forward(struct call call, uint64_t *book, const uint8_t *message, uint8_t *reply)
{
    uint64_t result;
    pthread_mutex_lock(&one_at_a_time);
    if (to_bridge < 0)
        start();
    give(&call, sizeof call);
    give(book, call.words * sizeof *book);
    give(message, call.length);
    give(reply, call.room);
    take(&result, sizeof result);
    take(book, call.words * sizeof *book);
    take(reply, call.room);
    pthread_mutex_unlock(&one_at_a_time);
    return result;
}

size_t consent_book_words(void)
{
    return forward((struct call){.function = BOOK_WORDS}, NULL, NULL, NULL);
}

uint64_t consent_open(uint64_t *book, size_t words, uint64_t screen, uint64_t screens)
{
    struct call call = {.function = OPEN, .words = words, .screen = screen, .screens = screens};
    return forward(call, book, NULL, NULL);
}

size_t consent_answer(uint64_t *book, size_t words, const uint8_t *message, size_t length, uint8_t *reply, size_t room)
{
    struct call call = {.function = ANSWER, .words = words, .length = length, .room = room};
    return forward(call, book, message, reply);
}

bool consent_permission(const uint64_t *book, size_t words, const uint8_t *message, size_t length)
{
    struct call call = {.function = PERMISSION, .words = words, .length = length};
    uint64_t *copy = malloc(words * sizeof *book);
    if (words > 0 && copy == NULL)
        fail("no memory for a book");
    for (size_t at = 0; at < words; at++)
        copy[at] = book[at];
    bool permitted = forward(call, copy, message, NULL) != 0;
    free(copy);
    return permitted;
}

size_t consent_reply_room(const uint8_t *message, size_t length)
{
    return forward((struct call){.function = REPLY_ROOM, .length = length}, NULL, message, NULL);
}

uint8_t consent_reply_kind(const uint8_t *reply, size_t length)
{
    return (uint8_t)forward((struct call){.function = REPLY_KIND, .length = length}, NULL, reply, NULL);
}
