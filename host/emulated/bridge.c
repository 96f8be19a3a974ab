/*
 * The x86-64 half: links the proved library and answers the calls that come in on standard input. It is compiled
 * without a C library's headers, since the machine that compiles it may have those of another processor alone.
 */
#include "call.h"
#include "consent.h"

enum { MOST_WORDS = 1 << 15, MOST_BYTES = 1 << 17 };

long read(int file, void *to, unsigned long count);
long write(int file, const void *from, unsigned long count);
_Noreturn void _exit(int status);

static uint64_t book[MOST_WORDS];
static uint8_t message[MOST_BYTES], reply[MOST_BYTES];

/* An end between calls is the end of the work. */
static void take(void *to, uint64_t count)
{
    for (uint64_t have = 0; have < count;) {
        long more = read(0, (uint8_t *)to + have, count - have);
        if (more <= 0)
            _exit(more < 0);
        have += (uint64_t)more;
    }
}

static void give(const void *from, uint64_t count)
{
    for (uint64_t gone = 0; gone < count;) {
        long more = write(1, (const uint8_t *)from + gone, count - gone);
        if (more <= 0)
            _exit(1);
        gone += (uint64_t)more;
    }
}

static uint64_t carried_out(const struct call *call)
{
    switch (call->function) {
    case BOOK_WORDS:
        return consent_book_words();
    case OPEN:
        return consent_open(book, call->words, call->screen, call->screens);
    case ANSWER:
        return consent_answer(book, call->words, message, call->length, reply, call->room);
    case PERMISSION:
        return consent_permission(book, call->words, message, call->length);
    case REPLY_ROOM:
        return consent_reply_room(message, call->length);
    case REPLY_KIND:
        return consent_reply_kind(message, call->length);
    default:
        _exit(1);
    }
}

int main(void)
{
    for (;;) {
        struct call call;
        take(&call, sizeof call);
        if (call.words > MOST_WORDS || call.length > MOST_BYTES || call.room > MOST_BYTES)
            _exit(1);
        take(book, call.words * sizeof *book);
        take(message, call.length);
        /* The reply goes there and back, so that bytes past it can be seen to stay. */
        take(reply, call.room);
        uint64_t result = carried_out(&call);
        give(&result, sizeof result);
        give(book, call.words * sizeof *book);
        give(reply, call.room);
    }
}
