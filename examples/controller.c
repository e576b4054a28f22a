/*
 * Steps a set through the listing of document 01 and prints each entry's answer and records, as the replay program does.
 * Around each step stands what docs/INTEGRATION.md asks of a controller. In the place of desks, wires and a clock there are
 * standard output and the six entries of the listing; what to do about a refusal goes to standard error.
 */
#include "imjauska.h"

#include <stdio.h>
#include <stdlib.h>
#include <string.h>

enum { VERSION = 1, TELEGRAM = 1, PLAN = 7, HANDOVER = 8 };

/* A set needs no heap: here it is static, and so all zero. */
static union {
    uint32_t aligned;
    uint8_t bytes[IMJAUSKA_SET_SIZE];
} memory;

static uint8_t entry[128];
static uint8_t records[32768]; /* 22,976 are enough for every entry, so that none is refused for want of room */

/* Puts an entry together: its length, the version, its kind and its payload. */
static size_t make(uint8_t kind, const void *payload, size_t size)
{
    size_t length = size + 2;
    entry[0] = (uint8_t)(length >> 8);
    entry[1] = (uint8_t)length;
    entry[2] = VERSION;
    entry[3] = kind;
    memcpy(entry + 4, payload, size);
    return size + 4;
}

/* The desk is that of the socket by which the telegram came: nothing in the telegram says it, as codes may be equal. */
static size_t make_telegram(uint8_t desk, const char *telegram)
{
    uint8_t payload[64];
    size_t size = strlen(telegram);
    payload[0] = desk;
    memcpy(payload + 1, telegram, size);
    return make(TELEGRAM, payload, size + 1);
}

/* A real controller writes to this desk's socket here, and to no other: another desk may not know the numbers in it. */
static void send_telegram(uint8_t desk, const uint8_t *telegram, size_t size)
{
    printf("T %u %.*s\n", desk, (int)size, (const char *)telegram);
}

/* .. and here it switches this desk's wire of the channel. Wires and sockets need not keep step with each other. */
static void switch_contact(uint8_t desk, uint8_t contact, uint8_t channel, uint8_t on)
{
    printf("C %u %u %u %u\n", desk, contact, channel, on);
}

/*
 * Each record: how many bytes follow the first two, the version, the desk that it is for, and a telegram or a contact. Only
 * the first count bytes are records of this entry; behind them is what the buffer held before.
 */
static void pass_on(size_t count)
{
    size_t at = 0;
    while (at < count) {
        const uint8_t *record = records + at;
        size_t length = (size_t)record[0] << 8 | record[1];
        if (record[4] == 1)
            send_telegram(record[3], record + 5, length - 3);
        else
            switch_contact(record[3], record[5], record[6], record[7]);
        at += 2 + length;
    }
}

/* What to do about a refusal. The set is as it was, so that the controller can always go on with the next entry. */
static const char *remedy(uint8_t refusal)
{
    switch (refusal) {
    case IMJAUSKA_BAD_LENGTH:
    case IMJAUSKA_BAD_VERSION:
    case IMJAUSKA_BAD_KIND:
    case IMJAUSKA_NO_DESK:
        return "the controller made a wrong entry: mend it";
    case IMJAUSKA_NO_PLAN:
    case IMJAUSKA_PLAN_PRESENT:
    case IMJAUSKA_BAD_PLAN:
        return "give a plan, hand over before the next, or mend it";
    case IMJAUSKA_BAD_HEADER:
        return "close the link if its stream has lost its place, else look at the desk's code in the plan";
    case IMJAUSKA_BAD_IDENTIFIER:
        return "answer it without the set (550416), or throw it away";
    case IMJAUSKA_WRONG_PHASE:
        return "throw it away; a 550411 is a health check's answer, or the desk starts anew";
    case IMJAUSKA_NO_ROOM:
        return "give the same entry again with a larger buffer";
    case IMJAUSKA_NO_RING:
        return "tell the mobile";
    case IMJAUSKA_BAD_BODY:
    case IMJAUSKA_NO_CHANNEL:
    case IMJAUSKA_WRONG_NUMBER:
    case IMJAUSKA_NOT_HOLDER:
    case IMJAUSKA_NO_CHANGE:
        return "throw it away: a desk, a wire or the radio said what is wrong, or what is so already";
    default:
        return "a number that this header does not have";
    }
}

static void step(int number, size_t length)
{
    size_t count;
    uint8_t refusal = imjauska_step((imjauska_set *)&memory, entry, length, records, sizeof records, &count);

    /* A real controller adds the entry to its log here, if refusal is not 1 or 16: a feed that ./replay takes. */
    printf("E %d %u %zu\n", number, refusal, count);
    if (refusal != IMJAUSKA_ACCEPTED)
        fprintf(stderr, "entry %d is refused with %u: %s\n", number, refusal, remedy(refusal));
    pass_on(count);

    /* Numbers of mobiles and records of all desks stand in both; whoever sees them next need not know them. */
    memset(records, 0, count);
    memset(entry, 0, length);
}

int main(void)
{
    static const uint8_t plan[] = {1, 0, 12, '0', '0', '1', '2', '0', '0', '0', '1', 1, 7, 1};
    const char *capture = "DV002900125506000078001200011";

    if (imjauska_set_size() != sizeof memory.bytes || imjauska_set_align() != IMJAUSKA_SET_ALIGN) {
        fputs("the header is not that of the library\n", stderr);
        return EXIT_FAILURE;
    }
    imjauska_new((imjauska_set *)&memory);
    if (imjauska_is_current(memory.bytes, sizeof memory.bytes) != 1) {
        fputs("a new set is not of the library's layout\n", stderr);
        return EXIT_FAILURE;
    }
    /*
     * A real controller loops here: it waits for sockets, wires and the radio, but no longer than to the next full second of
     * a monotonic clock, steps what came, and then, for each second that has passed, a tick: make(6, "", 0).
     */
    step(1, make(PLAN, plan, sizeof plan));
    step(2, make_telegram(0, capture)); /* refused: desk 0 does not run yet */
    step(3, make_telegram(0, "DV0030001255041120240229120000"));
    step(4, make_telegram(0, "DV0018001255042101"));
    step(5, make_telegram(0, capture));
    step(6, make(HANDOVER, "", 0));
    return EXIT_SUCCESS;
}
