/*
 * The line set of the Imjauska cases, for controllers: desks, channels and the rules of document 01 ("What the build
 * includes and its rules") and of document 02 ("Customer requests after the base"), request 1, entry by entry. Link
 * crates/controller/out/libcontroller.a, which `rt lib` in crates/controller writes for x86-64. Of C it needs memcpy,
 * memmove and memset alone: no allocation, no system call, no global state. What a controller does around it, from its
 * sockets to each refusal, is docs/INTEGRATION.md.
 *
 * Every function is proved to do what is said of it here (the two sizes are proved to be those of the compiler that makes
 * the archive; that a C compiler's are the same, and the four bytes that a set begins with, a test holds), for
 *   - an entry of any bytes and any length, 0 included,
 *   - a buffer of any length, 0 included, whatever it held,
 *   - a set of any contents.
 * It always returns, and reads and writes nothing but what the caller lends. The caller owes what no function can see:
 *   - the pointers lead to memory of the lengths given, which the caller may use, and which does not overlap; an entry, a
 *     buffer or saved bytes of length 0 may be NULL, the set and the count may not,
 *   - while a function runs nobody else uses what it was lent: not two threads at once on one set (two sets are apart),
 *   - 64 KiB of stack (tested, not proved).
 *
 * Entries go in, records come out; a number of bytes is 2 bytes, the high one first.
 *   - An entry: the number of bytes after these two, version 1, its kind, its payload, an item a byte except for telegrams and
 *     numbers (8 ASCII digits):
 *       1 telegram    desk, telegram              6 tick           none: one second has passed
 *       2 press       desk, channel, on           7 plan           desks, channels (docs/REFERENCE.md)
 *       3 cut         desk, channel               8 handover       none
 *       4 mobile on   channel, base, number       9 mobile call    channel, base, number, called desk's number
 *       5 mobile off  channel                    10 mobile cancel  channel
 *     A mobile call rings one desk until its ring answer (telegram 550419), a mobile cancel or the fifteenth tick.
 *     Time is the caller's: the timers stand still unless a tick is stepped every second.
 *   - A record: the number of bytes after these two, version 1, the desk that it is for, and then 1 and a telegram, or 2 and a
 *     contact of three bytes (1 press answer or 2 incoming; channel; on).
 */
#ifndef IMJAUSKA_H
#define IMJAUSKA_H

#include <stddef.h>
#include <stdint.h>

#ifdef __cplusplus
extern "C" {
#endif

/*
 * A set in the caller's memory: imjauska_set_size() bytes at an address that is a multiple of imjauska_set_align(). The
 * memory is initialised before imjauska_new, as static memory and that of calloc is; what it holds does not matter. From
 * then on only the functions below write it.
 *
 * Saving: a set is its bytes and nothing else, with no pointers, so that they may be copied, kept and put back, at the same
 * address or another; what follows is answered as if nothing had happened. Its first four bytes are "IMJ" and the number of
 * its layout, which imjauska_new writes and imjauska_step leaves; imjauska_is_current tells bytes of this release's layout
 * from those of another. The layout is number 2, since a channel has a ring timer: a set that an earlier release saved, number
 * 1, is not current. What it can't tell is who wrote the rest. Bytes that no entry made are some set, and every function
 * still does what is said of it here. Over whole feeds two things are proved of the memory itself, where it came from
 * imjauska_new and imjauska_step alone (crates/controller/specs/Promises.antt, 3 and 4):
 *   - A desk gets the same records, refusals and counts from two feeds that differ only in the numbers of mobiles that began
 *     to talk while another desk held their channel, or that called another number than this desk's, and in the mobile's
 *     number in other desks' ring answers, as long as each ring answer of a called desk matches its ring in both feeds or in
 *     neither. What a desk gets are the records with its desk byte among the first *count bytes of the buffer: a caller that
 *     passes on more shows it what the buffer held.
 *   - An accepted handover leaves the set as imjauska_new makes it, number by number.
 * So whoever saves a set keeps it where nobody else writes, or signs it.
 */
typedef struct imjauska_set imjauska_set;

/* The same two numbers, for a set in static memory. */
#define IMJAUSKA_SET_SIZE 1208
#define IMJAUSKA_SET_ALIGN 4

/* Why an entry was refused: the numbers of 01 and 02, in the order in which they are checked, 17 before 16. */
enum imjauska_refusal {
    IMJAUSKA_ACCEPTED = 0,
    IMJAUSKA_BAD_LENGTH = 1,      /* fewer than 4 bytes, the length wrong or above 12,000 */
    IMJAUSKA_BAD_VERSION = 2,     /* the version is not 1 */
    IMJAUSKA_BAD_KIND = 3,        /* the kind is not 1 to 10, its payload's size wrong, on above 1 or base above 29 */
    IMJAUSKA_NO_PLAN = 4,         /* there is no plan yet, and this is none */
    IMJAUSKA_PLAN_PRESENT = 5,    /* there is a plan, and this is another */
    IMJAUSKA_BAD_PLAN = 6,        /* the plan breaks a rule */
    IMJAUSKA_NO_DESK = 7,         /* the desk is not in the plan */
    IMJAUSKA_BAD_HEADER = 8,      /* the telegram's header is wrong, or its code is not the desk's */
    IMJAUSKA_BAD_IDENTIFIER = 9,  /* no telegram of this identifier, or none that a desk sends */
    IMJAUSKA_BAD_BODY = 10,       /* the telegram's body has another size or a field out of range */
    IMJAUSKA_WRONG_PHASE = 11,    /* the desk's link is not in the phase needed */
    IMJAUSKA_NO_CHANNEL = 12,     /* the channel is not in the plan, or the desk not entitled to it */
    IMJAUSKA_WRONG_NUMBER = 13,   /* not the desk's own number; a mobile's or a called number that is none */
    IMJAUSKA_NOT_HOLDER = 14,     /* press or cut by a desk that does not hold the channel */
    IMJAUSKA_NO_CHANGE = 15,      /* on while on, or off while off: press or mobile; mobile on while a mobile rings */
    IMJAUSKA_NO_RING = 17,        /* nobody to ring, no idle channel to ring on, or no ring to cancel */
    IMJAUSKA_NO_ROOM = 16         /* the records do not fit the buffer */
};

/* How many bytes a set takes. */
size_t imjauska_set_size(void);

/* What the address of a set is a multiple of. */
size_t imjauska_set_align(void);

/*
 * 1 if the bytes of a set that was saved are of this release's layout: as many as a set has, and beginning as one. 0 if not,
 * as for a set that a release without rings saved: then they are no set for these functions, and a new one is to be made.
 */
uint8_t imjauska_is_current(const uint8_t *saved, size_t length);

/* Makes a new set, without a plan, and writes every byte of it. */
void imjauska_new(imjauska_set *set);

/*
 * Takes one entry, its two length bytes included, and writes the records that it sends into the buffer, one after another.
 * Returns IMJAUSKA_ACCEPTED or why the entry was refused; *count becomes the number of bytes written.
 * Accepted: the bytes from *count on stay as they were. Refused: *count is 0, and the set and the buffer stay as they were.
 * After IMJAUSKA_NO_ROOM the same entry may be given again with a larger buffer; 22,976 bytes are enough for every entry of a set
 * that came from imjauska_new and imjauska_step (32 channels, 4 desks, all that a handover can end). This is proved of feeds
 * (crates/set_rules/specs/Promises.antt, 10); that the memory holds the feed's set after each entry is proved too
 * (crates/controller/specs/Promises.antt, 2).
 */
uint8_t imjauska_step(imjauska_set *set, const uint8_t *entry, size_t entry_length, uint8_t *buffer, size_t buffer_length,
                      size_t *count);

#ifdef __cplusplus
}
#endif

#endif
