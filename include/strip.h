/* Position strips: ranks of Lyndon words, marks and places on a strip and on its short ring, pictures of it, places in a laying plan, misreadings there, and
   its bill.

   A strip of k shades and windows of n marks joins, in dictionary order, all Lyndon words whose length divides n. It has k^n marks, at
   places 0 to k^n - 1, and goes round: after the last comes the first. Every window of n marks is read at exactly one place.

   The short ring of the same k and n joins only the Lyndon words of length n. It has n times as many places as there are such words, and reads, each at
   exactly one place, the windows that are not a shorter word repeated. The calls whose names begin with short_ are about it; all others are about the strip.

   Words and windows are bytes, one a mark, from 0 to k - 1. A tray is a buffer that the caller lends for the answer. Each call returns 0
   and has then put its answer over the first bytes of the tray, or it returns one of the numbers below and has written nothing. Bytes of
   a tray behind the answer are never touched. A number in a tray has its highest byte first.

   A call may come with any numbers and with any bytes in its slices; if several refusals apply, the first in the order
   7, 1, 12, 8, 14, 15, 2, 11, 3, 16, 4, 13, 5, 9, 6 is given. No call here gives 10, a lost cursor. What the caller must promise, since C cannot check
   it: each pointer is valid for its length (a null pointer only with length 0), and no tray overlaps another slice. The calls keep no state
   and may run in several threads at once, each with its own trays.

   For Linux on x86-64 only, on processors from x86-64-v2 on. The Rattle kit (docs/VERIFICATION.md says which) builds the library with `rt lib` in
   crates/strip; link it with

       gcc -O2 -Iinclude host.c crates/strip/out/libstrip.a -o host

   Of the C library it needs memcpy and memset, and of the stack about 62 kB in mark_at, print_marks and picture_of, 35 kB in
   misreadings_of, at most 33 kB in the others. On a 2.6 GHz machine and the strip (2, 60), as measured with the older kit and not again, rank_of,
   place_of and look_up take some 2 us (look_up 3 us with 500 sections), turn_of some 0.1 us, word_of, mark_at and print_marks some 70 to 110 us, and
   each mark printed a few ns more; short_place_of as rank_of, short_mark_at and short_print_marks as word_of; picture_of as print_marks, and 0.1 ms more for the largest file. The turn of a word that repeats itself, or has a long run of its
   smallest mark, takes up to 1.5 us, and its place up to 4 us. Shorter windows take less. look_up_smudged looks for 2 or 4 places on that
   strip, for up to 1,296 with 36 shades, which take some 0.5 ms. misreadings_of looks for the place of each change of a mark: 60 on that
   strip, up to 385 with 36 shades, in some 0.1 to 0.2 ms. bill_of takes some 2 us for 500 sections. */
#ifndef STRIP_H
#define STRIP_H
#include <stddef.h>
#include <stdint.h>

#ifdef __cplusplus
extern "C" {
#endif

/* The major number rises with a change that a host must react to, the minor number with a new call, or where a call promises more. */
#define STRIP_VERSION_MAJOR 3
#define STRIP_VERSION_MINOR 4

/* Limits: k from 2, n from 1, and k^n at most 2^60; sections of a plan, and the bytes of its longest record. */
#define STRIP_MOST_SHADES 36
#define STRIP_MOST_MARKS 60
#define STRIP_MOST_PLACES (UINT64_C(1) << 60)
#define STRIP_MOST_SECTIONS 500
#define STRIP_MOST_PLAN (4 + 18 * STRIP_MOST_SECTIONS) /* 9,004 */

/* Pictures: width and height from 1, and bytes that hold any file of so many marks in so many rows; its size is at most 5 less. */
#define STRIP_MOST_WIDTH 60000
#define STRIP_MOST_HEIGHT 64
#define STRIP_PICTURE(width, height) (12 + (height) * ((width) + ((width) + 69) / 70))
#define STRIP_MOST_PICTURE STRIP_PICTURE(STRIP_MOST_WIDTH, STRIP_MOST_HEIGHT) /* 3,894,924 */

/* Misreadings: bytes of a list's entry, the most entries, n * (k - 1) on the strip (36, 11), and bytes that hold any list. */
#define STRIP_ENTRY 10
#define STRIP_MOST_ENTRIES 385
#define STRIP_MOST_LIST (STRIP_ENTRY * STRIP_MOST_ENTRIES) /* 3,850 */

/* In look_up_smudged alone: the byte for a mark that the head could not read, and how many of these a window may have. */
#define STRIP_UNREAD 255
#define STRIP_MOST_UNREAD 2

/* Bills: the longest section in marks, the highest price of a mark in thousandths of a cent, the highest charge for a section in cents, and the highest bill
   in cents, which is below 2^55. */
#define STRIP_MOST_ROLL UINT64_C(4294967295)
#define STRIP_MOST_PRICE UINT64_C(10000000)
#define STRIP_MOST_CHARGE UINT64_C(4294967295)
#define STRIP_MOST_BILL (STRIP_MOST_SECTIONS * (STRIP_MOST_ROLL * (STRIP_MOST_PRICE / 1000) + STRIP_MOST_CHARGE)) /* 21,476,983,958,647,500 */

/* Numbers that a call returns. */
enum {
    STRIP_FINE = 0,
    STRIP_NO_SUCH_STRIP = 1,        /* k, n or k^n is outside the limits */
    STRIP_WRONG_WINDOW = 2,         /* the word does not have n marks */
    STRIP_BAD_MARK = 3,             /* a mark is k or more */
    STRIP_OFF_THE_STRIP = 4,        /* a place is k^n or more, or on the short ring as many as it has or more */
    STRIP_NO_SUCH_WORD = 5,         /* an index is 0 or above the number of Lyndon words */
    STRIP_TRAY_TOO_SMALL = 6,       /* a tray is shorter than its answer */
    STRIP_TORN_PLAN = 7,            /* under 4 bytes, more than 500 sections, or a total that fits neither record */
    STRIP_CROOKED_PLAN = 8,         /* a section is too short, overlaps the one ahead or ends behind the strip */
    STRIP_NOT_LAID = 9,             /* neither in a section nor across a welded joint; nor is a window that agrees */
    STRIP_TOO_SMUDGED = 11,         /* three or more marks were not read */
    STRIP_TWO_SHADES_ONLY = 12,     /* a picture of a strip with more than two shades */
    STRIP_BAD_PICTURE = 13,         /* a picture's width or height is outside the limits */
    STRIP_ROLL_TOO_LONG = 14,       /* a section of a plan that is billed has more than 4,294,967,295 marks */
    STRIP_NO_SUCH_PRICE = 15,       /* a price is above 10,000,000, or a charge above 4,294,967,295 */
    STRIP_REPEATING_WINDOW = 16     /* a window that is a shorter word repeated, which the short ring does not read */
};

/* What a returned number means, in words. */
static inline const char *strip_meaning(unsigned number) {
    switch (number) {
    case STRIP_FINE: return "fine";
    case STRIP_NO_SUCH_STRIP: return "no such strip";
    case STRIP_WRONG_WINDOW: return "wrong window";
    case STRIP_BAD_MARK: return "bad mark";
    case STRIP_OFF_THE_STRIP: return "off the strip";
    case STRIP_NO_SUCH_WORD: return "no such word";
    case STRIP_TRAY_TOO_SMALL: return "tray too small";
    case STRIP_TORN_PLAN: return "torn plan";
    case STRIP_CROOKED_PLAN: return "crooked plan";
    case STRIP_NOT_LAID: return "not laid";
    case STRIP_TOO_SMUDGED: return "too smudged";
    case STRIP_TWO_SHADES_ONLY: return "two shades only";
    case STRIP_BAD_PICTURE: return "bad picture";
    case STRIP_ROLL_TOO_LONG: return "roll too long";
    case STRIP_NO_SUCH_PRICE: return "no such price";
    case STRIP_REPEATING_WINDOW: return "repeating window";
    }
    return "refused";
}

/* Bytes of an answer: a number; a section, a distance and a rail. */
#define STRIP_NUMBER 8
#define STRIP_LAYING 12

/* The turn of a word of n marks: how many marks must go from its front to its end, one after the other, until it is its smallest rotation for the
   first time. 0 for a word that is so already, else below n: 1 for 101010. Read on from that mark, round the end, the word is its smallest
   rotation: mark i of that is word[(turn + i) % n]. Tray: 8 bytes. Refusals: 1, 2, 3, 6. */
uint8_t turn_of(uint64_t k, uint64_t n, const uint8_t *word, size_t word_len, uint8_t *tray, size_t tray_len);

/* The rank of a word of n marks: how many Lyndon words of length n do not exceed it. Tray: 8 bytes. Refusals: 1, 2, 3, 6. */
uint8_t rank_of(uint64_t k, uint64_t n, const uint8_t *word, size_t word_len, uint8_t *tray, size_t tray_len);

/* The Lyndon word of length n with an index from 1 on, in dictionary order. Tray: n bytes. Refusals: 1, 5, 6. */
uint8_t word_of(uint64_t k, uint64_t n, uint64_t index, uint8_t *tray, size_t tray_len);

/* The mark at a place. Tray: 8 bytes. Refusals: 1, 4, 6. */
uint8_t mark_at(uint64_t k, uint64_t n, uint64_t place, uint8_t *tray, size_t tray_len);

/* The one place at which a window of n marks is read. Tray: 8 bytes. Refusals: 1, 2, 3, 6. */
uint8_t place_of(uint64_t k, uint64_t n, const uint8_t *window, size_t window_len, uint8_t *tray, size_t tray_len);

/* So many marks from a place on, round the end as often as need be, a byte each; `marks` may be 0. Tray: `marks` bytes.
   Refusals: 1, 4, 6. */
uint8_t print_marks(uint64_t k, uint64_t n, uint64_t place, uint64_t marks, uint8_t *tray, size_t tray_len);

/* The same three on the short ring, for a head that takes a repeating window for a blank rail. Its places are 0 to n * L - 1, where L is the number of
   Lyndon words of length n, so at least n of them and at most k^n; with n = 1 it is the strip. Which k and n are admitted does not change.

   Example. With 2 shades and windows of 4 the short ring joins 0001, 0011 and 0111:

       uint8_t tray[STRIP_NUMBER], marks[12];
       short_print_marks(2, 4, 0, 12, marks, sizeof marks);              leaves 0 0 0 1 0 0 1 1 0 1 1 1 in `marks`
       short_place_of(2, 4, (const uint8_t[]){1, 1, 0, 0}, 4, tray, 8);  leaves 0 0 0 0 0 0 0 10 in the tray: it is read over the ring's end
       short_mark_at(2, 4, 7, tray, 8);                                  leaves 0 0 0 0 0 0 0 1 in it
       short_place_of(2, 4, (const uint8_t[]){0, 1, 0, 1}, 4, tray, 8);  returns 16
       short_mark_at(2, 4, 12, tray, 8);                                 returns 4 */

/* The mark at a place of the short ring. Tray: 8 bytes. Refusals: 1, 4, 6. */
uint8_t short_mark_at(uint64_t k, uint64_t n, uint64_t place, uint8_t *tray, size_t tray_len);

/* The one place of the short ring at which a window of n marks is read that is not a shorter word repeated. Tray: 8 bytes.
   Refusals: 1, 2, 3, 16, 6. */
uint8_t short_place_of(uint64_t k, uint64_t n, const uint8_t *window, size_t window_len, uint8_t *tray, size_t tray_len);

/* So many marks of the short ring from a place on, round the end as often as need be, a byte each; `marks` may be 0. Tray: `marks` bytes.
   Refusals: 1, 4, 6. */
uint8_t short_print_marks(uint64_t k, uint64_t n, uint64_t place, uint64_t marks, uint8_t *tray, size_t tray_len);

/* A picture of the strip for a printer: `width` marks from a place on, round the end as often as need be, in `height` rows that are all the same, as
   a plain PBM file. It has the line P1, the line with width and height, parted by a space, then for each row its marks as digits, in lines of
   70, the last one shorter if need be. Each line ends with byte 10. k must be 2; mark 1 is black.

   There are two trays: the size of the file, a number, goes into the first, of 8 bytes, the file into the second, which STRIP_PICTURE(width,
   height) bytes always hold. 6 is given if either is too short; then neither is touched. Refusals: 1, 12, 4, 13, 6.

   Example. The strip of windows of 4, 0000100110101111, from place 4 on:

       uint8_t size[STRIP_NUMBER], file[STRIP_PICTURE(5, 2)];
       picture_of(2, 4, 4, 5, 2, size, sizeof size, file, sizeof file);

   returns 0, leaves 0 0 0 0 0 0 0 19 in `size`, and in `file` the 19 bytes "P1\n5 2\n10011\n10011\n". */
uint8_t picture_of(uint64_t k, uint64_t n, uint64_t place, uint64_t width, uint64_t height, uint8_t *size, size_t size_len, uint8_t *tray,
                   size_t tray_len);

/* The section of a laying plan in which a window is read, its distance from the section's start, and the section's rail. Tray: 12 bytes, the
   section's number from 0 in 2, the distance in 8 and the rail in 2. Refusals: 7, 1, 8, 2, 3, 9, 6.

   A plan is one byte k, one byte n, 2 bytes with the number m of sections (0 to 500), then an entry for each section. In an old record an entry
   is offset and length, 8 bytes each, and the record has 4 + 16 m bytes; in a new one the number of the section's rail follows in 2, and the
   record has 4 + 18 m. The total tells which of the two it is; with m = 0 they are the same. Rails may be any numbers and may repeat. In an old
   record a section's rail is the section's own number.

   Each length is at least n, each section ends at or before k^n, and none starts before the one ahead ends. A window is laid in the section that
   holds its first mark, if its last mark is there too or, over a welded joint, in the next section. A joint is welded if the next section begins
   at the place where this one ends and, in a new record, has the same rail; then each place of this one has its window, and distance plus n may
   come out above the section's length. A gap of one place is not read over, nor is the strip's end.

   Example. On the strip of 2 shades and windows of 4, 0000100110101111, with the sections (0, 6) and (8, 8):

       const uint8_t plan[36] = {2, 4, 0, 2, 0, 0, 0, 0, 0, 0, 0, 0, 0, 0, 0, 0, 0, 0, 0, 6,
                                 0, 0, 0, 0, 0, 0, 0, 8, 0, 0, 0, 0, 0, 0, 0, 8};
       const uint8_t window[4] = {1, 0, 1, 1};
       uint8_t tray[STRIP_LAYING];
       look_up(plan, sizeof plan, window, sizeof window, tray, sizeof tray);

   returns 0 and leaves 0 1, 0 0 0 0 0 0 0 2, 0 1 in the tray: the window is read at place 10, in section 1, 2 marks from its start, and the
   rail is 1, the section's number, since the record is an old one. With the sections (0, 8) and (8, 8) the window 1101 is read at place 7, across
   the joint: section 0, distance 7, rail 0. In the new record with rail 7 for both sections its rail is 7; with rails 7 and 8 it is refused with 9. */
uint8_t look_up(const uint8_t *plan, size_t plan_len, const uint8_t *window, size_t window_len, uint8_t *tray, size_t tray_len);

/* The same for a window in which up to two marks could not be read: byte STRIP_UNREAD, which is no bad mark here and is one in every other call.
   The answer is section, distance and rail of the laid window that agrees at every mark that was read; if several do, of the one whose first mark has
   the lowest place on the strip, whatever its section, distance or rail. So any two readers answer alike; up to version 3.1 which one was
   answered was free. With every mark read the answer is look_up's. Tray: 12 bytes, as for look_up.
   Refusals: 7, 1, 8, 2, 11, 3, 9, 6, where 9 says that no laid window agrees.

   With the plan above, the window {STRIP_UNREAD, 0, 0, 0} leaves 0 0, 0 0 0 0 0 0 0 0, 0 0 in the tray: of 0000, at place 0, and 1000, at place 15
   and over the strip's end, only the first is laid. {1, STRIP_UNREAD, 1, STRIP_UNREAD} leaves 0 1, 0 0 0 0 0 0 0 0, 0 1: of the three that are laid,
   at the places 8, 10 and 12, the lowest. {1, 0, 0, STRIP_UNREAD} is refused with 9.

   Each unread mark may be any of the k shades, so with two of them k * k windows are tried, always all: at most 1,296. */
uint8_t look_up_smudged(const uint8_t *plan, size_t plan_len, const uint8_t *window, size_t window_len, uint8_t *tray, size_t tray_len);

/* How near a window that is laid is to another one: every change of one of its marks that gives a window which is laid too, as look_up has it. Each is
   an entry of 10 bytes: the mark's number from 0 in 1, its new shade in 1, and the place of the new window on the strip in 8. The smallest change in
   shade, the larger shade less the smaller, comes first, then the earlier mark, then the lower new shade. None is missing or listed twice.

   There are two trays: the number of entries goes into the first, of 8 bytes, the list into the second, which n * (k - 1) * STRIP_ENTRY bytes always
   hold, and STRIP_MOST_LIST on any strip. If no change gives a laid window the list is empty: the number is 0, and the second tray may have no bytes.
   6 is given if either is too short; then neither is touched. Refusals: 7, 1, 8, 2, 3, 9, 6, where 9 says that the window itself is not laid.

   Example. With the plan and the window of look_up, 1011:

       uint8_t count[STRIP_NUMBER], list[STRIP_MOST_LIST];
       misreadings_of(plan, sizeof plan, window, sizeof window, count, sizeof count, list, sizeof list);

   returns 0, leaves 0 0 0 0 0 0 0 2 in `count`, and 1 1, 0 0 0 0 0 0 0 12 and 3 0, 0 0 0 0 0 0 0 8 in the first 20 bytes of `list`: with mark 1 read
   as 1 it is 1111, at place 12, and with mark 3 read as 0 it is 1010, at place 8. The other two changes give 0011 and 1001, which are not laid. */
uint8_t misreadings_of(const uint8_t *plan, size_t plan_len, const uint8_t *window, size_t window_len, uint8_t *count, size_t count_len, uint8_t *tray,
                       size_t tray_len);

/* The bill of a laying plan, of either record, in cents. A section, a roll of strip, costs its length times the price of a mark, which is given in
   thousandths of a cent, rounded up to a whole cent if it is none already, and the charge, in cents, besides. Each section is rounded by itself, and
   the bill is their sum: with price 1 and no charge, one section of 1,001 marks costs 2, and two such cost 4. Gaps between sections cost nothing, and
   a plan without sections costs 0. Tray: 8 bytes, which hold any bill: none is above STRIP_MOST_BILL. Refusals: 7, 1, 8, 14, 15, 6; 15 also if there
   is no section.

   Example. With the plan of look_up, whose sections have 6 and 8 marks, at 250 thousandths a mark and with a charge of 100:

       uint8_t bill[STRIP_NUMBER];
       bill_of(plan, sizeof plan, 250, 100, bill, sizeof bill);

   returns 0 and leaves 0 0 0 0 0 0 0 204 in the tray: the marks of the first section cost 1.5 cents, which is 2, those of the second 2 cents, which
   stays 2, and each section 100 more. */
uint8_t bill_of(const uint8_t *plan, size_t plan_len, uint64_t price, uint64_t charge, uint8_t *tray, size_t tray_len);

#ifdef __cplusplus
}
#endif
#endif
