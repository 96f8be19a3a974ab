/* A call of the library as it goes through the pipe: this, then the book's words, the message and the reply's bytes as
 * they are. Back come the result, the book's words and the reply's bytes. */
#ifndef CALL_H
#define CALL_H

#include <stdint.h>

enum { BOOK_WORDS, OPEN, ANSWER, PERMISSION, REPLY_ROOM, REPLY_KIND };

struct call {
    uint64_t function, words, length, room, screen, screens;
};

#endif
