/*
 * The consent book of a family car, for a host in C or C++. Link target/staticlib/libconsent.a, which
 * `tools/library.sh` builds.
 *
 * A host lends memory and hands in bytes. Nothing is asked of the arguments but that each pointer has its length of
 * memory behind it and that what is written overlaps nothing else that is lent: any words, any bytes and any lengths
 * are judged and answered. No function keeps a pointer, allocates, or keeps anything between calls.
 *
 * Messages are described in docs/WIRE.md; docs/LAYOUT.md says what stands where in a book. host/c/numbers.c holds
 * every number below to the library, by calling it.
 */
#ifndef CONSENT_H
#define CONSENT_H

#include <stdbool.h>
#include <stddef.h>
#include <stdint.h>

#ifdef __cplusplus
extern "C" {
#endif

/* A house: so many screens, numbered from 0. The parts of a stamp are counted apart from the screens. */
#define CONSENT_LEAST_SCREENS 2
#define CONSENT_MOST_SCREENS 8
#define CONSENT_STAMP_PARTS 8

/* A tap: a prompt from 0, a showing and an answer; front end and serial are any that fit 8 and 32 bits. */
#define CONSENT_PROMPTS 64
#define CONSENT_LEAST_SHOWING 1
#define CONSENT_MOST_SHOWING 65535
#define CONSENT_ANSWER_ACCEPT 1
#define CONSENT_ANSWER_DECLINE 2

/* The most records that a log holds, and gossip brings; and the most that a book knows. */
#define CONSENT_LOG_ROOM 256
#define CONSENT_KNOWN_ROOM 1024

/* The first byte of a message. A screen is asked the first four; the next six are its replies, and to a send gossip. */
#define CONSENT_KIND_GOSSIP 1
#define CONSENT_KIND_TAP 3
#define CONSENT_KIND_QUESTION 4
#define CONSENT_KIND_SEND 12
#define CONSENT_KIND_TAKEN 5
#define CONSENT_KIND_ALREADY 6
#define CONSENT_KIND_VERDICT 7
#define CONSENT_KIND_WAIT 8
#define CONSENT_KIND_REFUSAL 9
#define CONSENT_KIND_GOSSIP_TAKEN 10
/* The first byte of each record inside gossip. */
#define CONSENT_KIND_RECORD 2

/* The lengths of messages: a byte of kind, and the fields as docs/WIRE.md has them. Gossip is a head and records. */
#define CONSENT_STAMP_BYTES (4 * CONSENT_STAMP_PARTS)
#define CONSENT_TAP_FIELDS_BYTES (1 + 4 + 1 + 2 + 1)
#define CONSENT_HEAD_BYTES (1 + 1 + 1 + 2 + CONSENT_STAMP_BYTES)
#define CONSENT_RECORD_BYTES (1 + 1 + 4 + CONSENT_STAMP_BYTES + CONSENT_TAP_FIELDS_BYTES)
#define CONSENT_TAP_BYTES (1 + CONSENT_TAP_FIELDS_BYTES + CONSENT_STAMP_BYTES)
#define CONSENT_QUESTION_BYTES (1 + 1 + CONSENT_STAMP_BYTES)
#define CONSENT_SEND_BYTES 1
#define CONSENT_TAKEN_BYTES (1 + CONSENT_STAMP_BYTES)
#define CONSENT_ALREADY_BYTES (1 + CONSENT_STAMP_BYTES)
#define CONSENT_VERDICT_BYTES (1 + 1 + 2 + 4 + 4 + CONSENT_STAMP_BYTES)
#define CONSENT_WAIT_BYTES (1 + 1)
#define CONSENT_REFUSAL_BYTES (1 + 1)
#define CONSENT_GOSSIP_TAKEN_BYTES (1 + 2 + 2)
/* The longest gossip, and so the longest message of all; the longest reply to anything but a send. */
#define CONSENT_LONGEST_GOSSIP (CONSENT_HEAD_BYTES + CONSENT_LOG_ROOM * CONSENT_RECORD_BYTES)
#define CONSENT_SHORT_REPLY CONSENT_VERDICT_BYTES

/* The second byte of a verdict. */
#define CONSENT_VERDICT_UNASKED 0
#define CONSENT_VERDICT_ACCEPTED 1
#define CONSENT_VERDICT_DECLINED 2
#define CONSENT_VERDICT_CONTESTED 3

/* The second byte of a refusal. consent_answer says SHORT_OUTPUT by returning 0. */
#define CONSENT_REFUSED_MALFORMED 1
#define CONSENT_REFUSED_WRONG_HOUSE 2
#define CONSENT_REFUSED_LABEL_AHEAD 3
#define CONSENT_REFUSED_OLD 4
#define CONSENT_REFUSED_CROSSED 5
#define CONSENT_REFUSED_CLAIMS_OURS 6
#define CONSENT_REFUSED_SPENT 7
#define CONSENT_REFUSED_GAP 8
#define CONSENT_REFUSED_NO_ROOM 9
#define CONSENT_REFUSED_UNSOUND 11
#define CONSENT_REFUSED_SHORT_OUTPUT 12

/* A book, for those who want to look at it: at which word each piece starts, and the words of one record or prompt. */
#define CONSENT_AT_SCREEN 0
#define CONSENT_AT_SCREENS 1
#define CONSENT_AT_LOGGED 2
#define CONSENT_AT_COUNTED_TAPS 3
#define CONSENT_AT_TABLE 4
#define CONSENT_AT_VALUE (CONSENT_AT_TABLE + CONSENT_MOST_SCREENS * CONSENT_STAMP_PARTS)
#define CONSENT_AT_LOG (CONSENT_AT_VALUE + CONSENT_STAMP_PARTS)
#define CONSENT_RECORD_WORDS (1 + 1 + CONSENT_STAMP_PARTS + 1)
#define CONSENT_AT_COUNTED (CONSENT_AT_LOG + CONSENT_LOG_ROOM * CONSENT_RECORD_WORDS)
#define CONSENT_AT_PROMPTS (CONSENT_AT_COUNTED + CONSENT_KNOWN_ROOM)
#define CONSENT_PROMPT_WORDS (1 + 1 + 1)
/* The length of a lent book, in words of 64 bits. */
#define CONSENT_BOOK_WORDS (CONSENT_AT_PROMPTS + CONSENT_PROMPTS * CONSENT_PROMPT_WORDS)

/* A tap is one word: the lowest bit of each field. */
#define CONSENT_BIT_OF_ANSWER 0
#define CONSENT_BIT_OF_SHOWING (CONSENT_BIT_OF_ANSWER + 2)
#define CONSENT_BIT_OF_PROMPT (CONSENT_BIT_OF_SHOWING + 16)
#define CONSENT_BIT_OF_SERIAL (CONSENT_BIT_OF_PROMPT + 6)
#define CONSENT_BIT_OF_FRONT_END (CONSENT_BIT_OF_SERIAL + 32)

/* The length of a lent book, in words: CONSENT_BOOK_WORDS. */
size_t consent_book_words(void);

/*
 * Writes the fresh book of one screen in a house of so many, over whatever was there, and returns 0. Refuses a book of
 * wrong length (UNSOUND), then a house or a screen that cannot be (WRONG_HOUSE), by the refusal's number; a refusal
 * changes nothing.
 */
uint64_t consent_open(uint64_t *book, size_t words, uint64_t screen, uint64_t screens);

/*
 * Answers one whole message of kind GOSSIP, TAP, QUESTION or SEND: writes the reply to the front of `reply`, puts the
 * book in order and returns the reply's length. A refusal is a reply like the others and changes nothing in the book:
 * UNSOUND for a damaged book or one of wrong length, then MALFORMED for bytes that are no such message, then the
 * others in their order.
 * Returns 0 exactly when `room` is below the length of the very reply; then neither book nor reply changes, and a tap
 * or gossip that would be taken is not. So CONSENT_SHORT_REPLY bytes hold every reply but a send's, which needs its
 * very message: CONSENT_HEAD_BYTES, and CONSENT_RECORD_BYTES for each record of the log.
 */
size_t consent_answer(uint64_t *book, size_t words, const uint8_t *message, size_t length, uint8_t *reply, size_t room);

/*
 * Whether the car may do what a question asks about: true exactly when the question is answered and its verdict is
 * ACCEPTED. A damaged book, any other bytes, a wait and every refusal are false.
 */
bool consent_permission(const uint64_t *book, size_t words, const uint8_t *message, size_t length);

/*
 * The greatest length of the reply to a request, by its byte of kind: CONSENT_GOSSIP_TAKEN_BYTES for gossip,
 * CONSENT_TAKEN_BYTES for a tap, CONSENT_VERDICT_BYTES for a question, CONSENT_LONGEST_GOSSIP for a send, and
 * CONSENT_REFUSAL_BYTES for anything else. With that much room consent_answer never returns 0.
 */
size_t consent_reply_room(const uint8_t *message, size_t length);

/*
 * Which reply some bytes are, by its kind, from TAKEN to GOSSIP_TAKEN, when they are one such message, whole, with its
 * field rules kept; else 0. Gossip, the reply to a send, is 0 here: the screen to which it is handed judges it.
 */
uint8_t consent_reply_kind(const uint8_t *reply, size_t length);

#ifdef __cplusplus
}
#endif

#endif
