/* Two screens of one car: a double tap on the first, gossip to the second, and permission on both. */
#include <stdio.h>
#include <string.h>

#include "consent.h"

enum { FRONT, REAR, SCREENS };
enum { SHOWN = 12, SERIAL_END = 5, ANSWER = 9 };

static uint64_t books[SCREENS][CONSENT_BOOK_WORDS];
static uint8_t reply[CONSENT_LONGEST_GOSSIP];

static void show(const char *what, size_t length)
{
    printf("%s: %zu bytes%s", what, length, length > 0 ? "," : "");
    for (size_t at = 0; at < length && at < SHOWN; at++)
        printf(" %02x", reply[at]);
    printf(length > SHOWN ? " ..\n" : "\n");
}

static size_t answer_in(size_t room, int screen, const char *what, const uint8_t *message, size_t length)
{
    size_t written = consent_answer(books[screen], CONSENT_BOOK_WORDS, message, length, reply, room);
    show(what, written);
    return written;
}

static size_t answer(int screen, const char *what, const uint8_t *message, size_t length)
{
    return answer_in(sizeof reply, screen, what, message, length);
}

/* Prompt 7, with a label that names the first so many taps of the front screen. */
static void ask(int screen, const char *where, uint8_t taps)
{
    uint8_t question[CONSENT_QUESTION_BYTES] = {CONSENT_KIND_QUESTION, 7, 0, 0, 0, taps};
    answer(screen, where, question, sizeof question);
    bool may = consent_permission(books[screen], CONSENT_BOOK_WORDS, question, sizeof question);
    printf("%s, permission: %s\n", where, may ? "yes" : "no");
}

int main(void)
{
    for (uint64_t screen = 0; screen < SCREENS; screen++)
        if (consent_open(books[screen], CONSENT_BOOK_WORDS, screen, SCREENS) != 0)
            return 1;

    /* Front end 5, serial 1, prompt 7, showing 1: one touch, an accept and a decline. */
    uint8_t tap[CONSENT_TAP_BYTES] = {CONSENT_KIND_TAP, 5, 0, 0, 0, 1, 7, 0, 1, CONSENT_ANSWER_ACCEPT};
    answer(FRONT, "accept", tap, sizeof tap);
    ask(FRONT, "front screen", 1);
    tap[ANSWER] = CONSENT_ANSWER_DECLINE;
    answer(FRONT, "decline", tap, sizeof tap);
    answer(FRONT, "decline again", tap, sizeof tap);
    ask(FRONT, "front screen", 2);
    ask(REAR, "rear screen", 2);

    uint8_t send[CONSENT_SEND_BYTES] = {CONSENT_KIND_SEND}, gossip[CONSENT_LONGEST_GOSSIP];
    size_t length = answer(FRONT, "send", send, sizeof send);
    memcpy(gossip, reply, length);
    answer(REAR, "gossip", gossip, length);
    answer(REAR, "gossip again", gossip, length);
    ask(REAR, "rear screen", 2);

    /* A new tap whose reply has no room is not taken. */
    tap[SERIAL_END] = 2;
    printf("always enough for a tap: %zu\n", consent_reply_room(tap, sizeof tap));
    answer_in(CONSENT_TAKEN_BYTES - 1, REAR, "new tap, a byte too little", tap, sizeof tap);
    answer_in(CONSENT_TAKEN_BYTES, REAR, "new tap, just the room", tap, sizeof tap);
    answer_in(CONSENT_TAKEN_BYTES, REAR, "same tap, just the room", tap, sizeof tap);

    /* The room of a refusal holds each of them, also that of a damaged book. */
    tap[ANSWER] = CONSENT_ANSWER_DECLINE + 1;
    answer_in(CONSENT_REFUSAL_BYTES, REAR, "no such answer", tap, sizeof tap);
    books[REAR][CONSENT_AT_SCREENS] = CONSENT_MOST_SCREENS + 1;
    answer_in(CONSENT_REFUSAL_BYTES, REAR, "damaged screen", tap, sizeof tap);
    ask(REAR, "damaged screen", 2);
    return 0;
}
