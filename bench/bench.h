/* The calls that are measured, written twice in C with the library's signatures: plain_ as document 004 publishes them, best_ as fast as
   we can; and what both need to refuse and to answer. */
#ifndef BENCH_H
#define BENCH_H
#include "../include/strip.h"
#include <string.h>

enum { MOST = 60, SECTIONS = 500 };

#define CALLS_OF(name)                                                                                                                  \
    uint8_t name##_turn_of(uint64_t k, uint64_t n, const uint8_t *word, size_t word_len, uint8_t *tray, size_t tray_len);              \
    uint8_t name##_rank_of(uint64_t k, uint64_t n, const uint8_t *word, size_t word_len, uint8_t *tray, size_t tray_len);              \
    uint8_t name##_word_of(uint64_t k, uint64_t n, uint64_t index, uint8_t *tray, size_t tray_len);                                    \
    uint8_t name##_mark_at(uint64_t k, uint64_t n, uint64_t place, uint8_t *tray, size_t tray_len);                                    \
    uint8_t name##_place_of(uint64_t k, uint64_t n, const uint8_t *window, size_t window_len, uint8_t *tray, size_t tray_len);         \
    uint8_t name##_print_marks(uint64_t k, uint64_t n, uint64_t place, uint64_t marks, uint8_t *tray, size_t tray_len);                \
    uint8_t name##_short_mark_at(uint64_t k, uint64_t n, uint64_t place, uint8_t *tray, size_t tray_len);                              \
    uint8_t name##_short_place_of(uint64_t k, uint64_t n, const uint8_t *window, size_t window_len, uint8_t *tray, size_t tray_len);   \
    uint8_t name##_short_print_marks(uint64_t k, uint64_t n, uint64_t place, uint64_t marks, uint8_t *tray, size_t tray_len);          \
    uint8_t name##_picture_of(uint64_t k, uint64_t n, uint64_t place, uint64_t width, uint64_t height, uint8_t *size, size_t size_len,  \
                              uint8_t *tray, size_t tray_len);                                                                          \
    uint8_t name##_look_up(const uint8_t *plan, size_t plan_len, const uint8_t *window, size_t window_len, uint8_t *tray, size_t tray_len); \
    uint8_t name##_look_up_smudged(const uint8_t *plan, size_t plan_len, const uint8_t *window, size_t window_len, uint8_t *tray, size_t tray_len); \
    uint8_t name##_misreadings_of(const uint8_t *plan, size_t plan_len, const uint8_t *window, size_t window_len, uint8_t *count, size_t count_len, \
                                  uint8_t *tray, size_t tray_len);                                                                      \
    uint8_t name##_bill_of(const uint8_t *plan, size_t plan_len, uint64_t price, uint64_t charge, uint8_t *tray, size_t tray_len)
CALLS_OF(plain);
CALLS_OF(best);

static const int8_t MOBIUS[MOST + 1] = {0, 1,  -1, -1, 0,  -1, 1,  -1, 0, 0, 1,  -1, 0, -1, 1,  1,  0, -1, 0, -1, 0, 1, 1, -1, 0, 0, 1, 0, 0, -1, -1,
                                        -1, 0, 1,  1,  1,  0,  -1, 1,  1, 0, -1, -1, -1, 0, 0,  1,  -1, 0, 0,  0, 1,  0, -1, 0, 1, 0, 1, 1, -1, 0};

/* k^n, or 0 if the strip is not admitted */
static inline uint64_t places_of(uint64_t k, uint64_t n) {
    uint64_t places = 1;
    if (k < 2 || k > 36 || n < 1 || n > MOST) return 0;
    for (uint64_t i = 0; i < n; i++) {
        if (places > ((uint64_t)1 << 60) / k) return 0;
        places *= k;
    }
    return places;
}

static inline uint8_t word_fault(uint64_t k, uint64_t n, const uint8_t *word, size_t length) {
    if (places_of(k, n) == 0) return 1;
    if (length != n) return 2;
    for (size_t i = 0; i < length; i++)
        if (word[i] >= k) return 3;
    return 0;
}

static inline uint8_t place_fault(uint64_t k, uint64_t n, uint64_t place) {
    uint64_t places = places_of(k, n);
    return places == 0 ? 1 : place >= places ? 4 : 0;
}

static inline uint8_t picture_fault(uint64_t k, uint64_t n, uint64_t place, uint64_t width, uint64_t height) {
    uint8_t fault = place_fault(k, n, place);
    if (fault == 1) return 1;
    if (k != 2) return 12;
    if (fault != 0) return fault;
    return width < 1 || width > STRIP_MOST_WIDTH || height < 1 || height > STRIP_MOST_HEIGHT ? 13 : 0;
}

static inline uint64_t lyndon_count(uint64_t k, uint64_t n) {
    int64_t sum = 0;
    for (uint64_t d = 1, power = k; d <= n; d++, power *= k)
        if (n % d == 0) sum += MOBIUS[n / d] * (int64_t)power;
    return (uint64_t)sum / n;
}

/* of a place on the short ring */
static inline uint8_t short_fault(uint64_t k, uint64_t n, uint64_t place) {
    return places_of(k, n) == 0 ? 1 : place >= n * lyndon_count(k, n) ? 4 : 0;
}

static inline uint64_t get_number(const uint8_t *at, int length) {
    uint64_t value = 0;
    if (length == 8) {
        memcpy(&value, at, 8);
        return __builtin_bswap64(value);
    }
    for (int i = 0; i < length; i++) value = value << 8 | at[i];
    return value;
}

static inline void put_number(uint8_t *at, uint64_t value, int length) {
    for (int i = 0; i < length; i++) at[i] = (uint8_t)(value >> 8 * (length - 1 - i));
}

static inline uint8_t answer(uint64_t value, uint8_t *tray, size_t tray_len) {
    if (tray_len < 8) return 6;
    put_number(tray, value, 8);
    return 0;
}

/* bytes of a section's entry: told by the total, 18 in a record with rails, else 16 */
static inline size_t entry_of(const uint8_t *plan, size_t length) {
    return length == 4 + 16 * get_number(plan + 2, 2) ? 16 : 18;
}

/* of a plan's total, count and strip; the strip's places */
static inline uint8_t head_fault(const uint8_t *plan, size_t length, uint64_t *places) {
    if (length < 4 || get_number(plan + 2, 2) > SECTIONS || length != 4 + entry_of(plan, length) * get_number(plan + 2, 2)) return 7;
    *places = places_of(plan[0], plan[1]);
    return *places == 0;
}

/* whether a section keeps the rules, behind one with this end; its own end then */
static inline int is_straight(uint64_t offset, uint64_t size, uint64_t n, uint64_t places, uint64_t *end) {
    if (offset < *end || offset > places || size < n || size > places - offset) return 0;
    *end = offset + size;
    return 1;
}

static inline uint8_t plan_fault(const uint8_t *plan, size_t length) {
    uint64_t places, end = 0;
    uint8_t fault = head_fault(plan, length, &places);
    if (fault != 0) return fault;
    for (size_t at = 4; at < length; at += entry_of(plan, length))
        if (!is_straight(get_number(plan + at, 8), get_number(plan + at + 8, 8), plan[1], places, &end)) return 8;
    return 0;
}

static inline uint8_t price_fault(uint64_t price, uint64_t charge) {
    return price > STRIP_MOST_PRICE || charge > STRIP_MOST_CHARGE ? 15 : 0;
}

/* the answer for the window at a place p, if it is laid in a section that holds its first mark; the section's entry is at `at`. 0 if it is not */
static inline int answer_in(const uint8_t *plan, size_t plan_len, size_t at, uint64_t p, uint8_t *answer) {
    size_t entry = entry_of(plan, plan_len), next = at + entry, number = (at - 4) / entry;
    uint64_t offset = get_number(plan + at, 8), end = offset + get_number(plan + at + 8, 8);
    if (p + plan[1] > end) {
        if (next == plan_len || get_number(plan + next, 8) != end) return 0;
        if (entry == 18 && get_number(plan + next + 16, 2) != get_number(plan + at + 16, 2)) return 0;
    }
    put_number(answer, number, 2);
    put_number(answer + 2, p - offset, 8);
    put_number(answer + 10, entry == 18 ? get_number(plan + at + 16, 2) : number, 2);
    return 1;
}

/* section, distance and rail of the window at a place of an accepted plan, as the answer's 12 bytes; 0 if it is not laid */
typedef int laid_at(const uint8_t *plan, size_t plan_len, uint64_t place, uint8_t *answer);
typedef uint8_t place_call(uint64_t k, uint64_t n, const uint8_t *window, size_t window_len, uint8_t *tray, size_t tray_len);

/* a window looked up in a plan without fault */
static inline uint8_t look_in(place_call *place_of_it, laid_at *laid, const uint8_t *plan, size_t plan_len, const uint8_t *window, size_t window_len,
                              uint8_t *tray, size_t tray_len) {
    uint8_t found[8], answer[STRIP_LAYING], fault = place_of_it(plan[0], plan[1], window, window_len, found, 8);
    if (fault != 0) return fault;
    if (!laid(plan, plan_len, get_number(found, 8), answer)) return 9;
    if (tray_len < sizeof answer) return 6;
    memcpy(tray, answer, sizeof answer);
    return 0;
}

/* the place of a window without fault */
typedef uint64_t place_in(uint64_t k, size_t n, const uint8_t *window);

static inline uint8_t smudge_fault(uint64_t k, uint64_t n, const uint8_t *window, size_t length) {
    size_t unread = 0, bad = 0;
    if (length != n) return 2;
    for (size_t i = 0; i < length; i++) {
        unread += window[i] == STRIP_UNREAD;
        bad += window[i] >= k && window[i] != STRIP_UNREAD;
    }
    return unread > STRIP_MOST_UNREAD ? 11 : bad != 0 ? 3 : 0;
}

/* a smudged window in a plan without fault: of all its fillings the laid one of the lowest place. Only a place below the lowest so far is
   looked for in the plan */
static inline uint8_t fit_in(place_in *place, laid_at *laid, const uint8_t *plan, size_t plan_len, const uint8_t *window, size_t window_len,
                             uint8_t *tray, size_t tray_len) {
    uint8_t filled[MOST], answer[STRIP_LAYING], fault = smudge_fault(plan[0], plan[1], window, window_len);
    uint64_t total = 1, lowest = UINT64_MAX;
    size_t unread[STRIP_MOST_UNREAD], count = 0;
    if (fault != 0) return fault;
    memcpy(filled, window, window_len);
    for (size_t i = 0; i < window_len; i++)
        if (window[i] == STRIP_UNREAD) unread[count++] = i, total *= plan[0];
    for (uint64_t filling = 0; filling < total; filling++) {
        for (uint64_t i = 0, rest = filling; i < count; i++, rest /= plan[0]) filled[unread[i]] = (uint8_t)(rest % plan[0]);
        uint64_t found = place(plan[0], plan[1], filled);
        if (found < lowest && laid(plan, plan_len, found, answer)) lowest = found;
    }
    if (lowest == UINT64_MAX) return 9;
    if (tray_len < sizeof answer) return 6;
    memcpy(tray, answer, sizeof answer);
    return 0;
}

/* a list of misreadings as far as it is made: the plan, how a place is found and looked for in it, and the window, of which a mark is changed at a time */
struct changes {
    const uint8_t *plan;
    size_t plan_len, entries;
    place_in *place;
    laid_at *laid;
    uint8_t window[MOST], list[STRIP_MOST_LIST];
};

/* one mark with another shade: an entry more, if there is such a shade and the window is laid then */
static inline void try_change(struct changes *c, size_t mark, unsigned shade) {
    uint8_t answer[STRIP_LAYING], read = c->window[mark], *entry = c->list + STRIP_ENTRY * c->entries;
    if (shade >= c->plan[0]) return;
    c->window[mark] = (uint8_t)shade;
    uint64_t place = c->place(c->plan[0], c->plan[1], c->window);
    c->window[mark] = read;
    if (!c->laid(c->plan, c->plan_len, place, answer)) return;
    entry[0] = (uint8_t)mark;
    entry[1] = (uint8_t)shade;
    put_number(entry + 2, place, 8);
    c->entries++;
}

/* the misreadings of a window in a plan without fault, made in the order of the list */
static inline uint8_t misread_in(place_in *place, laid_at *laid, const uint8_t *plan, size_t plan_len, const uint8_t *window, size_t window_len,
                                 uint8_t *count, size_t count_len, uint8_t *tray, size_t tray_len) {
    struct changes c = {.plan = plan, .plan_len = plan_len, .place = place, .laid = laid};
    uint8_t answer[STRIP_LAYING], fault = word_fault(plan[0], plan[1], window, window_len);
    if (fault != 0) return fault;
    if (!laid(plan, plan_len, place(plan[0], plan[1], window), answer)) return 9;
    memcpy(c.window, window, window_len);
    for (unsigned apart = 1; apart < plan[0]; apart++)
        for (size_t mark = 0; mark < window_len; mark++) {
            try_change(&c, mark, window[mark] - apart); /* below 0 it wraps to no shade */
            try_change(&c, mark, window[mark] + apart);
        }
    if (count_len < 8 || tray_len < STRIP_ENTRY * c.entries) return 6;
    put_number(count, c.entries, 8);
    memcpy(tray, c.list, STRIP_ENTRY * c.entries);
    return 0;
}

/* the length of the shortest word that, repeated, gives a word that is its own smallest rotation */
static inline size_t root_of(const uint8_t *word, size_t n) {
    size_t period = 1;
    for (size_t i = 1; i < n; i++)
        if (word[i] != word[i - period]) period = i + 1;
    return n % period == 0 ? period : n;
}

/* the step of document 003, section 1.4.2, on a word repeated to n letters: the length of the next Lyndon word, 0 after the last */
static inline size_t step(uint8_t top, size_t n, uint8_t *word) {
    size_t j = n;
    while (j > 0 && word[j - 1] == top) j--;
    if (j == 0) return 0;
    word[j - 1]++;
    for (size_t i = j; i < n; i++) word[i] = word[i - j];
    return j;
}
#endif
