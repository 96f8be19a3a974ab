/* Every number of consent.h, held to the library by calling it: each claim that does not hold is printed. */
#include <stdio.h>

#include "consent.h"

/* The practice tap, and what tells the messages of this file apart. */
enum { FRONT_END = 5, SERIAL = 1, PROMPT = 7, SHOWING = 3 };

#define HOLDS(claim) held((claim), #claim, __LINE__)
#define REFUSED(length, number) HOLDS(is_refusal((length), (number)))

struct tap {
    uint32_t serial;
    uint8_t prompt;
    uint16_t showing;
    uint8_t answer;
};

/* A message under way: its bytes, and how many stand there. Room for one record more than gossip may bring. */
struct message {
    uint8_t bytes[CONSENT_LONGEST_GOSSIP + CONSENT_RECORD_BYTES];
    size_t length;
};

static const struct tap practice = {SERIAL, PROMPT, SHOWING, CONSENT_ANSWER_ACCEPT};
static const uint32_t nothing[CONSENT_STAMP_PARTS];

static uint64_t book[CONSENT_BOOK_WORDS + 1];
static uint8_t reply[CONSENT_LONGEST_GOSSIP];
static int broken;

static void held(bool holds, const char *claim, int line)
{
    if (holds)
        return;
    broken++;
    printf("numbers.c, line %d: not so: %s\n", line, claim);
}

/* ---- messages */

static void put(struct message *message, uint64_t value, int bytes)
{
    while (bytes-- > 0)
        message->bytes[message->length++] = (uint8_t)(value >> 8 * bytes);
}

static void put_stamp(struct message *message, const uint32_t *stamp)
{
    for (int part = 0; part < CONSENT_STAMP_PARTS; part++)
        put(message, stamp[part], 4);
}

static void put_tap(struct message *message, struct tap tap)
{
    put(message, FRONT_END, 1);
    put(message, tap.serial, 4);
    put(message, tap.prompt, 1);
    put(message, tap.showing, 2);
    put(message, tap.answer, 1);
}

/* A stamp of which the first two parts are told. */
struct stamp {
    uint32_t parts[CONSENT_STAMP_PARTS];
};

static struct stamp stamp(uint32_t first, uint32_t second)
{
    return (struct stamp){{first, second}};
}

static struct message tap_message(struct tap tap, const uint32_t *label)
{
    struct message message = {.length = 0};
    put(&message, CONSENT_KIND_TAP, 1);
    put_tap(&message, tap);
    put_stamp(&message, label);
    return message;
}

static struct message question_message(uint8_t prompt, const uint32_t *label)
{
    struct message message = {.length = 0};
    put(&message, CONSENT_KIND_QUESTION, 1);
    put(&message, prompt, 1);
    put_stamp(&message, label);
    return message;
}

/* Gossip with the records of screen 1 that `from` and `to` name: accepts whose serial is their number. */
static struct message gossip_message(uint8_t sender, uint8_t screens, struct stamp m, uint32_t from, uint32_t to)
{
    struct message message = {.length = 0};
    put(&message, CONSENT_KIND_GOSSIP, 1);
    put(&message, sender, 1);
    put(&message, screens, 1);
    put(&message, to + 1 - from, 2);
    put_stamp(&message, m.parts);
    for (uint32_t number = from; number <= to; number++) {
        put(&message, CONSENT_KIND_RECORD, 1);
        put(&message, 1, 1);
        put(&message, number, 4);
        put_stamp(&message, nothing);
        put_tap(&message, (struct tap){number, PROMPT, SHOWING, CONSENT_ANSWER_ACCEPT});
    }
    return message;
}

/* ---- calls */

static void fresh(uint64_t screen, uint64_t screens)
{
    HOLDS(consent_open(book, CONSENT_BOOK_WORDS, screen, screens) == 0);
}

static size_t answer_bytes(const uint8_t *bytes, size_t length)
{
    return consent_answer(book, CONSENT_BOOK_WORDS, bytes, length, reply, sizeof reply);
}

static size_t answer(struct message message)
{
    return answer_bytes(message.bytes, message.length);
}

static size_t tap(struct tap tap)
{
    return answer(tap_message(tap, nothing));
}

static size_t ask(uint8_t prompt, struct stamp label)
{
    return answer(question_message(prompt, label.parts));
}

static size_t send(void)
{
    uint8_t message[CONSENT_SEND_BYTES] = {CONSENT_KIND_SEND};
    return answer_bytes(message, sizeof message);
}

static bool is_refusal(size_t length, uint8_t number)
{
    return length == CONSENT_REFUSAL_BYTES && reply[0] == CONSENT_KIND_REFUSAL && reply[1] == number;
}

/* Whether the last reply is of that kind and length, and the library reads just that as one. */
static bool is_reply(size_t length, uint8_t kind, size_t bytes)
{
    return length == bytes && reply[0] == kind && consent_reply_kind(reply, length) == kind
        && consent_reply_kind(reply, length - 1) == 0;
}

/* ---- the numbers, group by group */

static void the_length_of_a_book(void)
{
    HOLDS(consent_book_words() == CONSENT_BOOK_WORDS);
    HOLDS(consent_open(book, CONSENT_BOOK_WORDS, 0, CONSENT_LEAST_SCREENS) == 0);
    HOLDS(consent_open(book, CONSENT_BOOK_WORDS - 1, 0, CONSENT_LEAST_SCREENS) == CONSENT_REFUSED_UNSOUND);
    HOLDS(consent_open(book, CONSENT_BOOK_WORDS + 1, 0, CONSENT_LEAST_SCREENS) == CONSENT_REFUSED_UNSOUND);
}

static void houses(void)
{
    fresh(CONSENT_LEAST_SCREENS - 1, CONSENT_LEAST_SCREENS);
    fresh(CONSENT_MOST_SCREENS - 1, CONSENT_MOST_SCREENS);
    HOLDS(consent_open(book, CONSENT_BOOK_WORDS, 0, CONSENT_LEAST_SCREENS - 1) == CONSENT_REFUSED_WRONG_HOUSE);
    HOLDS(consent_open(book, CONSENT_BOOK_WORDS, 0, CONSENT_MOST_SCREENS + 1) == CONSENT_REFUSED_WRONG_HOUSE);
    HOLDS(consent_open(book, CONSENT_BOOK_WORDS, 2, 2) == CONSENT_REFUSED_WRONG_HOUSE);
}

/* Each part of a label but our own can be lacking, and has its bit; a stamp in a reply has just these parts. */
static void the_parts_of_a_stamp(void)
{
    fresh(0, CONSENT_MOST_SCREENS);
    for (int part = 1; part < CONSENT_STAMP_PARTS; part++) {
        struct stamp label = stamp(0, 0);
        label.parts[part] = 1;
        HOLDS(is_reply(ask(PROMPT, label), CONSENT_KIND_WAIT, CONSENT_WAIT_BYTES));
        HOLDS(reply[1] == 1 << part);
    }
    HOLDS(tap(practice) == 1 + CONSENT_STAMP_BYTES);
}

static void the_fields_of_a_tap(void)
{
    fresh(0, 2);
    HOLDS(ask(CONSENT_PROMPTS - 1, stamp(0, 0)) == CONSENT_VERDICT_BYTES);
    REFUSED(ask(CONSENT_PROMPTS, stamp(0, 0)), CONSENT_REFUSED_MALFORMED);
    REFUSED(tap((struct tap){1, CONSENT_PROMPTS, 1, CONSENT_ANSWER_ACCEPT}), CONSENT_REFUSED_MALFORMED);
    REFUSED(tap((struct tap){1, 0, CONSENT_LEAST_SHOWING - 1, CONSENT_ANSWER_ACCEPT}), CONSENT_REFUSED_MALFORMED);
    REFUSED(tap((struct tap){1, 0, (uint16_t)(CONSENT_MOST_SHOWING + 1), CONSENT_ANSWER_ACCEPT}),
            CONSENT_REFUSED_MALFORMED);
    REFUSED(tap((struct tap){1, 0, 1, CONSENT_ANSWER_ACCEPT - 1}), CONSENT_REFUSED_MALFORMED);
    REFUSED(tap((struct tap){1, 0, 1, CONSENT_ANSWER_DECLINE + 1}), CONSENT_REFUSED_MALFORMED);
    HOLDS(tap((struct tap){1, 0, CONSENT_LEAST_SHOWING, CONSENT_ANSWER_ACCEPT}) == CONSENT_TAKEN_BYTES);
    HOLDS(tap((struct tap){1, 0, CONSENT_MOST_SHOWING, CONSENT_ANSWER_DECLINE}) == CONSENT_TAKEN_BYTES);
    ask(0, stamp(0, 0));
    HOLDS((reply[2] << 8 | reply[3]) == CONSENT_MOST_SHOWING);
}

/* A byte less and a byte more are no such message. */
static void has_just_that_length(struct message message, size_t bytes)
{
    HOLDS(message.length == bytes);
    HOLDS(!is_refusal(answer(message), CONSENT_REFUSED_MALFORMED));
    for (message.length = bytes - 1; message.length <= bytes + 1; message.length += 2)
        REFUSED(answer(message), CONSENT_REFUSED_MALFORMED);
}

static void the_lengths_of_requests(void)
{
    struct message send = {.bytes = {CONSENT_KIND_SEND}, .length = CONSENT_SEND_BYTES};
    fresh(0, 2);
    has_just_that_length(tap_message(practice, nothing), CONSENT_TAP_BYTES);
    has_just_that_length(question_message(PROMPT, nothing), CONSENT_QUESTION_BYTES);
    has_just_that_length(send, CONSENT_SEND_BYTES);
    has_just_that_length(gossip_message(1, 2, stamp(0, 0), 1, 0), CONSENT_HEAD_BYTES);
    has_just_that_length(gossip_message(1, 2, stamp(0, 1), 1, 1), CONSENT_HEAD_BYTES + CONSENT_RECORD_BYTES);
    HOLDS(CONSENT_TAP_BYTES == 1 + CONSENT_TAP_FIELDS_BYTES + CONSENT_STAMP_BYTES);
}

static void the_kinds_and_lengths_of_replies(void)
{
    fresh(0, 2);
    HOLDS(send() == CONSENT_HEAD_BYTES && reply[0] == CONSENT_KIND_GOSSIP);
    HOLDS(is_reply(tap(practice), CONSENT_KIND_TAKEN, CONSENT_TAKEN_BYTES));
    HOLDS(is_reply(tap(practice), CONSENT_KIND_ALREADY, CONSENT_ALREADY_BYTES));
    HOLDS(is_reply(ask(PROMPT, stamp(1, 0)), CONSENT_KIND_VERDICT, CONSENT_VERDICT_BYTES));
    HOLDS(is_reply(ask(PROMPT, stamp(1, 1)), CONSENT_KIND_WAIT, CONSENT_WAIT_BYTES));
    HOLDS(is_reply(ask(PROMPT, stamp(2, 0)), CONSENT_KIND_REFUSAL, CONSENT_REFUSAL_BYTES));
    HOLDS(send() == CONSENT_HEAD_BYTES + CONSENT_RECORD_BYTES && reply[CONSENT_HEAD_BYTES] == CONSENT_KIND_RECORD);
    struct message news = gossip_message(1, 2, stamp(0, 1), 1, 1);
    HOLDS(is_reply(answer(news), CONSENT_KIND_GOSSIP_TAKEN, CONSENT_GOSSIP_TAKEN_BYTES));
}

static size_t room_for(uint8_t kind)
{
    return consent_reply_room(&kind, 1);
}

static void the_room_of_replies(void)
{
    HOLDS(room_for(CONSENT_KIND_TAP) == CONSENT_TAKEN_BYTES && CONSENT_TAKEN_BYTES == CONSENT_ALREADY_BYTES);
    HOLDS(room_for(CONSENT_KIND_QUESTION) == CONSENT_VERDICT_BYTES);
    HOLDS(room_for(CONSENT_KIND_GOSSIP) == CONSENT_GOSSIP_TAKEN_BYTES);
    HOLDS(room_for(CONSENT_KIND_SEND) == CONSENT_LONGEST_GOSSIP);
    HOLDS(room_for(CONSENT_KIND_RECORD) == CONSENT_REFUSAL_BYTES);
    HOLDS(CONSENT_SHORT_REPLY >= room_for(CONSENT_KIND_TAP) && CONSENT_SHORT_REPLY >= room_for(CONSENT_KIND_GOSSIP));
    HOLDS(CONSENT_SHORT_REPLY == room_for(CONSENT_KIND_QUESTION));
}

static uint8_t verdict(bool permitted)
{
    struct message question = question_message(PROMPT, nothing);
    HOLDS(consent_permission(book, CONSENT_BOOK_WORDS, question.bytes, question.length) == permitted);
    HOLDS(answer(question) == CONSENT_VERDICT_BYTES);
    return reply[1];
}

static void verdicts(void)
{
    const struct tap decline = {SERIAL, PROMPT, SHOWING, CONSENT_ANSWER_DECLINE};
    fresh(0, 2);
    HOLDS(verdict(false) == CONSENT_VERDICT_UNASKED);
    tap(decline);
    HOLDS(verdict(false) == CONSENT_VERDICT_DECLINED);
    tap(practice);
    HOLDS(verdict(false) == CONSENT_VERDICT_CONTESTED);
    fresh(0, 2);
    tap(practice);
    HOLDS(verdict(true) == CONSENT_VERDICT_ACCEPTED);
    reply[1] = CONSENT_VERDICT_CONTESTED + 1;
    HOLDS(consent_reply_kind(reply, CONSENT_VERDICT_BYTES) == 0);
}

/* Those about room come where logs and books are filled, those about books where their lengths are told. */
static void refusals(void)
{
    fresh(0, 3);
    tap(practice);
    answer(gossip_message(1, 3, stamp(0, 2), 1, 2));
    REFUSED(answer_bytes(reply, 0), CONSENT_REFUSED_MALFORMED);
    REFUSED(answer(gossip_message(0, 3, stamp(0, 2), 1, 0)), CONSENT_REFUSED_WRONG_HOUSE);
    REFUSED(ask(PROMPT, stamp(2, 0)), CONSENT_REFUSED_LABEL_AHEAD);
    REFUSED(answer(gossip_message(1, 3, stamp(0, 2), 1, 0)), CONSENT_REFUSED_OLD);
    REFUSED(answer(gossip_message(1, 3, stamp(1, 1), 1, 0)), CONSENT_REFUSED_CROSSED);
    REFUSED(answer(gossip_message(1, 3, stamp(2, 2), 1, 0)), CONSENT_REFUSED_CLAIMS_OURS);
    REFUSED(answer(gossip_message(1, 3, stamp(0, 4), 4, 4)), CONSENT_REFUSED_GAP);
    book[CONSENT_AT_SCREENS] = CONSENT_MOST_SCREENS + 1;
    REFUSED(send(), CONSENT_REFUSED_UNSOUND);
}

/* The numbers that a refusal may have: those told above, the two about room, and SHORT_OUTPUT as the last. */
static void the_numbers_of_refusals(void)
{
    uint8_t refusal[CONSENT_REFUSAL_BYTES] = {CONSENT_KIND_REFUSAL};
    for (refusal[1] = 0; refusal[1] < UINT8_MAX; refusal[1]++) {
        bool low = refusal[1] >= CONSENT_REFUSED_MALFORMED && refusal[1] <= CONSENT_REFUSED_NO_ROOM;
        bool high = refusal[1] >= CONSENT_REFUSED_UNSOUND && refusal[1] <= CONSENT_REFUSED_SHORT_OUTPUT;
        HOLDS((consent_reply_kind(refusal, sizeof refusal) == CONSENT_KIND_REFUSAL) == (low || high));
    }
}

/* Taps until the log is full; the serials go on from `from`. */
static void fill_log(uint32_t from)
{
    for (uint32_t serial = from; serial < from + CONSENT_LOG_ROOM; serial++)
        HOLDS(tap((struct tap){serial, PROMPT, SHOWING, CONSENT_ANSWER_ACCEPT}) == CONSENT_TAKEN_BYTES);
    HOLDS(book[CONSENT_AT_LOGGED] == CONSENT_LOG_ROOM);
}

static void the_room_of_logs_and_books(void)
{
    const struct tap unheard = {UINT32_MAX, PROMPT, SHOWING, CONSENT_ANSWER_ACCEPT};
    fresh(0, 2);
    for (uint32_t known = 0; known < CONSENT_KNOWN_ROOM;) {
        fill_log(known);
        known += CONSENT_LOG_ROOM;
        HOLDS(send() == CONSENT_LONGEST_GOSSIP);
        REFUSED(tap(unheard), known < CONSENT_KNOWN_ROOM ? CONSENT_REFUSED_NO_ROOM : CONSENT_REFUSED_SPENT);
        HOLDS(answer(gossip_message(1, 2, stamp(known, 0), 1, 0)) == CONSENT_GOSSIP_TAKEN_BYTES);
    }
    HOLDS(book[CONSENT_AT_COUNTED_TAPS] == CONSENT_KNOWN_ROOM);
    REFUSED(tap(unheard), CONSENT_REFUSED_SPENT);
}

static void the_records_of_gossip(void)
{
    struct message most = gossip_message(1, 2, stamp(0, CONSENT_LOG_ROOM), 1, CONSENT_LOG_ROOM);
    fresh(0, 2);
    REFUSED(answer(gossip_message(1, 2, stamp(0, CONSENT_LOG_ROOM + 1), 1, CONSENT_LOG_ROOM + 1)),
            CONSENT_REFUSED_MALFORMED);
    HOLDS(most.length == CONSENT_LONGEST_GOSSIP && answer(most) == CONSENT_GOSSIP_TAKEN_BYTES);
}

static uint64_t tap_word(struct tap tap)
{
    return (uint64_t)FRONT_END << CONSENT_BIT_OF_FRONT_END | (uint64_t)tap.serial << CONSENT_BIT_OF_SERIAL
         | (uint64_t)tap.prompt << CONSENT_BIT_OF_PROMPT | (uint64_t)tap.showing << CONSENT_BIT_OF_SHOWING
         | (uint64_t)tap.answer << CONSENT_BIT_OF_ANSWER;
}

static bool has_stamp(size_t at, uint32_t first, uint32_t second)
{
    bool rest = true;
    for (size_t part = 2; part < CONSENT_STAMP_PARTS; part++)
        rest = rest && book[at + part] == 0;
    return rest && book[at] == first && book[at + 1] == second;
}

/* Screen 0 of 5 takes two taps and hears of two, the first of them its own again: so no two numbers told are alike. */
static void what_stands_where_in_a_book(void)
{
    const struct tap last = {SERIAL, CONSENT_PROMPTS - 1, SHOWING, CONSENT_ANSWER_DECLINE};
    const uint64_t *row = book + CONSENT_AT_LOG, *standing = book + CONSENT_AT_PROMPTS;
    fresh(0, 5);
    tap(practice);
    tap(last);
    answer(gossip_message(1, 5, stamp(0, 2), 1, 2));
    HOLDS(book[CONSENT_AT_SCREEN] == 0 && book[CONSENT_AT_SCREENS] == 5);
    HOLDS(book[CONSENT_AT_LOGGED] == 4 && book[CONSENT_AT_COUNTED_TAPS] == 3);
    HOLDS(has_stamp(CONSENT_AT_TABLE, 2, 2) && has_stamp(CONSENT_AT_TABLE + CONSENT_STAMP_PARTS, 0, 2));
    HOLDS(has_stamp(CONSENT_AT_VALUE, 2, 2));
    HOLDS(row[0] == 0 && row[1] == 1 && has_stamp(CONSENT_AT_LOG + 2, 0, 0));
    HOLDS(row[CONSENT_RECORD_WORDS - 1] == tap_word(practice));
    row += 2 * CONSENT_RECORD_WORDS;
    HOLDS(row[0] == 1 && row[1] == 1 && row[CONSENT_RECORD_WORDS - 1] == tap_word(practice));
    HOLDS(book[CONSENT_AT_COUNTED] == tap_word(practice) && book[CONSENT_AT_COUNTED + 1] == tap_word(last));
    standing += PROMPT * CONSENT_PROMPT_WORDS;
    HOLDS(standing[0] == SHOWING && standing[1] == 2 && standing[2] == 0);
    standing = book + CONSENT_BOOK_WORDS - CONSENT_PROMPT_WORDS;
    HOLDS(standing[0] == SHOWING && standing[1] == 0 && standing[2] == 1);
    fresh(1, 5);
    HOLDS(book[CONSENT_AT_SCREEN] == 1);
}

int main(void)
{
    the_length_of_a_book();
    houses();
    the_parts_of_a_stamp();
    the_fields_of_a_tap();
    the_lengths_of_requests();
    the_kinds_and_lengths_of_replies();
    the_room_of_replies();
    verdicts();
    refusals();
    the_numbers_of_refusals();
    the_room_of_logs_and_books();
    the_records_of_gossip();
    what_stands_where_in_a_book();
    return broken != 0;
}
