/* Calls the library with junk: every set of refusals that can apply together, every section looked for and every pair of a plan broken, every section
   of a bill too long, windows alone in a plan, every joint on small strips, then inputs drawn with a fixed seed. An argument says how many of these, for
   a shorter run without the small strips. Checked: the number given back, that a refusal leaves every byte as it was, that an answer leaves the bytes
   after it, and answers by round trips, of smudged windows beside every filling, of bills by thousands of marks, of the short ring by its words. Exits 1 if
   anything is wrong, a number is never given, a call never answers, or smudged windows hardly ever fit two laid ones. */
#include "../include/strip.h"
#include "lent.h"
#include <limits.h>

enum { TURN, RANK, WORD, MARK, PLACE, PRINT, SHORT_MARK, SHORT_PLACE, SHORT_PRINT, PICTURE, LOOK, SMUDGED, MISREAD, BILL, CALLS };
enum { SHADES = 36, LONGEST = 60, MOST_SECTIONS = 500, NUMBER = 8, LAYING = 12, UNREAD = 255, MOST_UNREAD = 2 };
enum { WIDEST = 60000, HIGHEST = 64, LINE = 70, CHANGE = 10 }; /* CHANGE: bytes of an entry in a list of misreadings */
enum { HEAD = 4, PAIR = 16, RAILED = 18 }; /* bytes of a plan before the entries, of an entry in an old record, and in a new one */
enum { ENOUGH = 1000 }; /* choices, which are smudged windows that fit more than one laid window; more are not counted */
enum { MOST_WORD = 96, MOST_TRAY = 1 << 18, MOST_PLAN = 9100, MOST_COUNT = 16 };
#define MOST_PLACES ((uint64_t)1 << 60)
#define MOST_ROLL ((uint64_t)4294967295) /* marks of a section that is billed */
#define MOST_PRICE ((uint64_t)10000000)
#define MOST_CHARGE ((uint64_t)4294967295)
static const char *const NAMES[CALLS] = {"turn_of",       "rank_of",        "word_of",           "mark_at",    "place_of", "print_marks",
                                         "short_mark_at", "short_place_of", "short_print_marks", "picture_of", "look_up",  "look_up_smudged",
                                         "misreadings_of", "bill_of"};

/* The order of the refusals. Those that apply are a mask with a bit for each number; what is counted by number has room for every bit. */
#define IN_ORDER(X) X(7) X(1) X(12) X(8) X(14) X(15) X(10) X(2) X(11) X(3) X(16) X(4) X(13) X(5) X(9) X(6)
#define LISTED(number) number,
#define HAS_A_BIT(number) && (number) < BITS
enum { BITS = sizeof(unsigned) * CHAR_BIT };
static const unsigned ORDER[] = {IN_ORDER(LISTED)};
_Static_assert(1 IN_ORDER(HAS_A_BIT), "a refusal's number has no bit in a mask");

/* What the header tells a host is what is tried here. */
_Static_assert(STRIP_MOST_SHADES == SHADES && STRIP_MOST_MARKS == LONGEST && STRIP_MOST_PLACES == MOST_PLACES, "limits of a strip");
_Static_assert(STRIP_MOST_SECTIONS == MOST_SECTIONS && STRIP_MOST_PLAN == HEAD + RAILED * MOST_SECTIONS, "limits of a plan");
_Static_assert(STRIP_NUMBER == NUMBER && STRIP_LAYING == LAYING, "bytes of an answer");
_Static_assert(STRIP_MOST_WIDTH == WIDEST && STRIP_MOST_HEIGHT == HIGHEST && STRIP_MOST_PICTURE == 3894924, "limits of a picture");
_Static_assert(STRIP_ENTRY == CHANGE && STRIP_MOST_LIST == CHANGE * 11 * (SHADES - 1), "bytes of a list, and the longest, on (36, 11)");
_Static_assert(STRIP_UNREAD == UNREAD && STRIP_MOST_UNREAD == MOST_UNREAD, "marks that were not read");
_Static_assert(STRIP_MOST_ROLL == MOST_ROLL && STRIP_MOST_PRICE == MOST_PRICE && STRIP_MOST_CHARGE == MOST_CHARGE, "limits of a bill");
_Static_assert(STRIP_MOST_BILL == 21476983958647500, "the largest bill");
_Static_assert(MOST_PLAN >= HEAD + RAILED * (MOST_SECTIONS + 1) + RAILED, "a plan of one section too many, and a longer one, have room");

struct ask {
    int call, kind;
    uint64_t k, n, number, marks, height; /* the marks of a picture are its width */
    uint64_t price, charge;
    const uint8_t *input, *plan;
    size_t input_length, plan_length, tray_length;
    size_t count_length; /* of the tray for a picture's size or a list's number of entries */
};

static struct room input_room, plan_room, tray_room, count_room;
static unsigned long refused[BITS], failures, round_trips[CALLS], choices;

static void fail(const struct ask *a, const char *what, unsigned given, unsigned wanted) {
    if (failures++ >= 20) return;
    printf("%s: %s; k %llu, n %llu, number %llu, marks %llu, height %llu, price %llu, charge %llu, input of %zu, plan of %zu, tray of %zu, for a count %zu; "
           "given %u, expected %u; input",
           NAMES[a->call], what, (unsigned long long)a->k, (unsigned long long)a->n, (unsigned long long)a->number, (unsigned long long)a->marks,
           (unsigned long long)a->height, (unsigned long long)a->price, (unsigned long long)a->charge, a->input_length, a->plan_length, a->tray_length,
           a->count_length, given, wanted);
    for (size_t i = 0; i < a->input_length; i++) printf(" %u", a->input[i]);
    printf("; plan");
    for (size_t i = 0; i < a->plan_length && i < 100; i++) printf(" %02x", a->plan[i]);
    printf("\n");
}

/* What the rules say of a call */

static int admitted(uint64_t k, uint64_t n, uint64_t *places) {
    *places = 1;
    if (k < 2 || k > SHADES || n < 1 || n > LONGEST) return 0;
    for (uint64_t i = 0; i < n; i++) {
        if (*places > MOST_PLACES / k) return 0;
        *places *= k;
    }
    return 1;
}

static int mobius(uint64_t n) {
    int sign = 1;
    for (uint64_t p = 2; n > 1; p++) {
        if (n % p != 0) continue;
        n /= p;
        if (n % p == 0) return 0;
        sign = -sign;
    }
    return sign;
}

static uint64_t lyndon_count(uint64_t k, uint64_t n) {
    int64_t sum = 0;
    for (uint64_t d = 1; d <= n; d++) {
        uint64_t power;
        if (n % d == 0 && admitted(k, d, &power)) sum += mobius(n / d) * (int64_t)power;
    }
    return (uint64_t)sum / n;
}

/* two rotations of a word compared, as memcmp does */
static int compare_turns(const uint8_t *word, size_t n, size_t one, size_t other) {
    for (size_t i = 0; i < n; i++) {
        int differ = word[(one + i) % n] - word[(other + i) % n];
        if (differ != 0) return differ;
    }
    return 0;
}

static int is_lyndon(const uint8_t *word, size_t n) {
    for (size_t turn = 1; turn < n; turn++)
        if (compare_turns(word, n, 0, turn) >= 0) return 0;
    return 1;
}

/* whether a word is a shorter one repeated: then a turn of it is the word itself */
static int repeats(const uint8_t *word, size_t n) {
    for (size_t turn = 1; turn < n; turn++)
        if (compare_turns(word, n, 0, turn) == 0) return 1;
    return 0;
}

static uint64_t number_in(const uint8_t *bytes, int length) {
    uint64_t value = 0;
    for (int i = 0; i < length; i++) value = value << 8 | bytes[i];
    return value;
}

static unsigned word_faults(uint64_t k, uint64_t n, const uint8_t *word, size_t length) {
    unsigned faults = length != n ? 1u << 2 : 0;
    for (size_t i = 0; i < length; i++)
        if (word[i] >= k) faults |= 1u << 3;
    return faults;
}

static void put_number(uint8_t *at, uint64_t value, int length) {
    for (int i = 0; i < length; i++) at[i] = (uint8_t)(value >> 8 * (length - 1 - i));
}

static size_t count_in(const uint8_t *plan) {
    return (size_t)number_in(plan + 2, 2);
}

/* bytes of an entry, told by the total; 0 if it fits neither record */
static size_t entry_of(const uint8_t *plan, size_t length) {
    return length == HEAD + PAIR * count_in(plan) ? PAIR : length == HEAD + RAILED * count_in(plan) ? RAILED : 0;
}

/* entry i of a plan, as an old or a new record has it */
static void put_entry(uint8_t *plan, size_t entry, uint64_t i, uint64_t offset, uint64_t size, uint64_t rail) {
    uint8_t *at = plan + HEAD + entry * i;
    put_number(at, offset, 8);
    put_number(at + 8, size, 8);
    if (entry == RAILED) put_number(at + PAIR, rail, 2);
}

static unsigned plan_faults(const uint8_t *plan, size_t length) {
    uint64_t places, end = 0;
    if (length < HEAD || count_in(plan) > MOST_SECTIONS || entry_of(plan, length) == 0) return 1u << 7;
    if (!admitted(plan[0], plan[1], &places)) return 1u << 1;
    for (size_t at = HEAD; at < length; at += entry_of(plan, length)) {
        uint64_t offset = number_in(plan + at, 8), size = number_in(plan + at + 8, 8);
        if (offset < end || offset > places || size < plan[1] || size > places - offset) return 1u << 8;
        end = offset + size;
    }
    return 0;
}

static int holds_mark(const uint8_t *section, uint64_t place) {
    uint64_t offset = number_in(section, 8);
    return place >= offset && place - offset < number_in(section + 8, 8);
}

/* the section that holds the mark at a place, or NULL */
static const uint8_t *holder(const struct ask *a, uint64_t place) {
    size_t entry = entry_of(a->plan, a->plan_length);
    for (const uint8_t *section = a->plan + HEAD; section < a->plan + a->plan_length; section += entry)
        if (holds_mark(section, place)) return section;
    return NULL;
}

/* section, distance and rail at which a window is laid, as the answer's 12 bytes; 0 if it is not: each of its marks must be held by a section, in a new
   record by one with the same rail */
static int laid(const struct ask *a, uint64_t place, uint8_t *answer) {
    size_t entry = entry_of(a->plan, a->plan_length);
    const uint8_t *first = holder(a, place), *section = first;
    for (uint64_t i = 0; i < a->plan[1] && section != NULL; i++)
        if (!holds_mark(section, place + i)) section = holder(a, place + i);
    if (section == NULL || (entry == RAILED && memcmp(section + PAIR, first + PAIR, 2) != 0)) return 0;
    uint64_t number = (uint64_t)(first - a->plan - HEAD) / entry;
    put_number(answer, number, 2);
    put_number(answer + 2, place - number_in(first, 8), 8);
    put_number(answer + 10, entry == RAILED ? number_in(first + PAIR, 2) : number, 2);
    return 1;
}

static uint64_t place_by_library(uint64_t k, uint64_t n, const uint8_t *window) {
    uint8_t tray[8] = {0};
    return place_of(k, n, window, n, tray, 8) == 0 ? number_in(tray, 8) : UINT64_MAX;
}

static unsigned look_faults(const struct ask *a) {
    uint8_t answer[LAYING];
    unsigned faults = plan_faults(a->plan, a->plan_length);
    if (faults & 1u << 7) return faults;
    faults |= word_faults(a->plan[0], a->plan[1], a->input, a->input_length);
    if (faults == 0 && !laid(a, place_by_library(a->plan[0], a->plan[1], a->input), answer)) faults |= 1u << 9;
    return faults;
}

static unsigned smudge_faults(uint64_t k, uint64_t n, const uint8_t *window, size_t length) {
    unsigned faults = length != n ? 1u << 2 : 0;
    int unread = 0;
    for (size_t i = 0; i < length; i++) {
        unread += window[i] == UNREAD;
        if (window[i] >= k && window[i] != UNREAD) faults |= 1u << 3;
    }
    return unread > MOST_UNREAD ? faults | 1u << 11 : faults;
}

/* whether a window with shades tried in place of the marks that were not read, from the mark i on, is laid at a place from low to below high */
static int some_laid(const struct ask *a, uint8_t *window, size_t i, uint64_t low, uint64_t high) {
    while (i < a->input_length && window[i] != UNREAD) i++;
    if (i == a->input_length) {
        uint8_t answer[LAYING];
        uint64_t place = place_by_library(a->plan[0], a->plan[1], window);
        return place >= low && place < high && laid(a, place, answer);
    }
    int found = 0;
    for (unsigned shade = 0; shade < a->plan[0] && !found; shade++) {
        window[i] = (uint8_t)shade;
        found = some_laid(a, window, i + 1, low, high);
    }
    window[i] = UNREAD;
    return found;
}

/* the same of the ask's own window */
static int fits(const struct ask *a, uint64_t low, uint64_t high) {
    uint8_t window[LONGEST];
    memcpy(window, a->input, a->input_length);
    return some_laid(a, window, 0, low, high);
}

static unsigned smudged_faults(const struct ask *a) {
    unsigned faults = plan_faults(a->plan, a->plan_length);
    if (faults & 1u << 7) return faults;
    faults |= smudge_faults(a->plan[0], a->plan[1], a->input, a->input_length);
    if (faults != 0) return faults;
    return fits(a, 0, UINT64_MAX) ? 0 : 1u << 9;
}

/* the entry of a list for the window with a mark changed to a shade; 0 if that is the shade it has, or the new window is not laid */
static int misread(const struct ask *a, uint64_t mark, uint64_t shade, uint8_t *entry) {
    uint8_t window[LONGEST], answer[LAYING];
    if (shade == a->input[mark]) return 0;
    memcpy(window, a->input, a->input_length);
    window[mark] = (uint8_t)shade;
    uint64_t place = place_by_library(a->plan[0], a->plan[1], window);
    put_number(entry, mark, 1);
    put_number(entry + 1, shade, 1);
    put_number(entry + 2, place, 8);
    return laid(a, place, answer);
}

/* bytes of a list: every mark is tried with every shade; none if the window is refused */
static size_t list_length(const struct ask *a) {
    uint8_t entry[CHANGE];
    size_t entries = 0;
    if (look_faults(a) != 0) return 0;
    for (uint64_t mark = 0; mark < a->plan[1]; mark++)
        for (uint64_t shade = 0; shade < a->plan[0]; shade++) entries += (size_t)misread(a, mark, shade, entry);
    return CHANGE * entries;
}

/* of a roll that is too long only in a record that is not torn */
static unsigned bill_faults(const struct ask *a) {
    unsigned faults = plan_faults(a->plan, a->plan_length);
    if (a->price > MOST_PRICE || a->charge > MOST_CHARGE) faults |= 1u << 15;
    if (faults & 1u << 7) return faults;
    for (size_t at = HEAD; at < a->plan_length; at += entry_of(a->plan, a->plan_length))
        if (number_in(a->plan + at + 8, 8) > MOST_ROLL) faults |= 1u << 14;
    return faults;
}

static int takes_a_word(int call) {
    return call == TURN || call == RANK || call == PLACE || call == SHORT_PLACE;
}

static int takes_a_place(int call) {
    return call == MARK || call == PRINT || call == SHORT_MARK || call == SHORT_PRINT || call == PICTURE;
}

static int prints(int call) {
    return call == PRINT || call == SHORT_PRINT;
}

/* how many places the ring has that a call is about, the short one or the strip; 0 if there is no such strip */
static uint64_t places_for(int call, uint64_t k, uint64_t n) {
    uint64_t places;
    if (!admitted(k, n, &places)) return 0;
    return call == SHORT_MARK || call == SHORT_PRINT ? n * lyndon_count(k, n) : places;
}

/* a plan and a window of it */
static int looks_in_a_plan(int call) {
    return call == LOOK || call == SMUDGED || call == MISREAD;
}

/* whether there is a tray for a count beside the answer's */
static int has_count(int call) {
    return call == PICTURE || call == MISREAD;
}

static int is_drawable(const struct ask *a) {
    return a->marks >= 1 && a->marks <= WIDEST && a->height >= 1 && a->height <= HIGHEST;
}

/* a picture's two lines ahead of its rows */
static size_t picture_head(const struct ask *a, char *head, size_t room) {
    return (size_t)snprintf(head, room, "P1\n%llu %llu\n", (unsigned long long)a->marks, (unsigned long long)a->height);
}

static size_t picture_length(const struct ask *a) {
    char head[64];
    if (!is_drawable(a)) return 0;
    return picture_head(a, head, sizeof head) + (size_t)(a->height * (a->marks + (a->marks + LINE - 1) / LINE));
}

static size_t answer_length(const struct ask *a) {
    if (a->call == PICTURE) return picture_length(a);
    if (a->call == MISREAD) return list_length(a);
    size_t marks = a->marks > SIZE_MAX ? SIZE_MAX : (size_t)a->marks;
    return a->call == WORD ? (size_t)a->n : prints(a->call) ? marks : a->call == LOOK || a->call == SMUDGED ? LAYING : NUMBER;
}

/* the refusals that apply, 1 << number each; of a place or an index only over an admitted strip, of a tray, which is to hold so many bytes, only if
   nothing else applies */
static unsigned faults_of(const struct ask *a, size_t length) {
    uint64_t places;
    unsigned faults = 0;
    if (a->call == LOOK || a->call == MISREAD) {
        faults = look_faults(a);
    } else if (a->call == SMUDGED) {
        faults = smudged_faults(a);
    } else if (a->call == BILL) {
        faults = bill_faults(a);
    } else {
        int good = admitted(a->k, a->n, &places);
        if (!good) faults |= 1u << 1;
        if (takes_a_word(a->call)) faults |= word_faults(a->k, a->n, a->input, a->input_length);
        if (a->call == SHORT_PLACE && repeats(a->input, a->input_length)) faults |= 1u << 16;
        if (good && takes_a_place(a->call) && a->number >= places_for(a->call, a->k, a->n)) faults |= 1u << 4;
        if (a->call == PICTURE && a->k != 2) faults |= 1u << 12;
        if (a->call == PICTURE && !is_drawable(a)) faults |= 1u << 13;
        if (good && a->call == WORD && (a->number == 0 || a->number > lyndon_count(a->k, a->n))) faults |= 1u << 5;
    }
    if (faults == 0 && (a->tray_length < length || (has_count(a->call) && a->count_length < NUMBER))) faults |= 1u << 6;
    return faults;
}

static unsigned first_of(unsigned faults) {
    for (size_t i = 0; i < sizeof ORDER / sizeof *ORDER; i++)
        if (faults & 1u << ORDER[i]) return ORDER[i];
    if (faults == 0) return 0;
    fprintf(stderr, "hostile: the order lacks a refusal\n");
    exit(3);
}

/* Answers by round trips, and the turn by what it means */

/* no rotation is below the one by the turn, and none before it is the same */
static int sound_turn(const struct ask *a, uint64_t turn) {
    if (turn >= a->n) return 0;
    for (size_t other = 0; other < a->n; other++) {
        int differ = compare_turns(a->input, a->n, turn, other);
        if (differ > 0 || (differ == 0 && other < turn)) return 0;
    }
    return 1;
}

static int sound_rank(const struct ask *a, uint64_t rank) {
    uint8_t word[LONGEST], next[LONGEST], tray[8];
    uint64_t last = lyndon_count(a->k, a->n);
    if (rank > last) return 0;
    if (rank > 0) {
        if (word_of(a->k, a->n, rank, word, a->n) != 0 || memcmp(word, a->input, a->n) > 0) return 0;
        if (rank_of(a->k, a->n, word, a->n, tray, 8) != 0 || number_in(tray, 8) != rank) return 0;
    }
    return rank == last || (word_of(a->k, a->n, rank + 1, next, a->n) == 0 && memcmp(next, a->input, a->n) > 0);
}

static int sound_word(const struct ask *a, const uint8_t *word) {
    uint8_t tray[8];
    return is_lyndon(word, a->n) && rank_of(a->k, a->n, word, a->n, tray, 8) == 0 && number_in(tray, 8) == a->number;
}

static int sound_place(const struct ask *a, uint64_t place) {
    uint8_t window[LONGEST];
    return print_marks(a->k, a->n, place, a->n, window, a->n) == 0 && memcmp(window, a->input, a->n) == 0;
}

static int sound_mark(const struct ask *a, uint64_t mark) {
    uint8_t one;
    return print_marks(a->k, a->n, a->number, 1, &one, 1) == 0 && one == mark;
}

/* the first window printed, and the last, stand where they were asked for */
static int sound_print(const struct ask *a, const uint8_t *marks) {
    uint8_t window[LONGEST];
    uint64_t places;
    admitted(a->k, a->n, &places);
    if (a->marks == 0) return 1;
    if (a->marks < a->n)
        return print_marks(a->k, a->n, a->number, a->n, window, a->n) == 0 && memcmp(marks, window, a->marks) == 0 &&
               place_by_library(a->k, a->n, window) == a->number;
    return place_by_library(a->k, a->n, marks) == a->number &&
           place_by_library(a->k, a->n, marks + a->marks - a->n) == (a->number + a->marks - a->n) % places;
}

/* whether the short ring has these marks from a place on, round the end: each of its words is found by its index */
static int on_short_ring(const struct ask *a, uint64_t place, uint64_t count, const uint8_t *marks) {
    uint8_t word[LONGEST];
    uint64_t places = places_for(SHORT_MARK, a->k, a->n);
    if (place >= places) return 0;
    for (uint64_t i = 0; i < count; i++) {
        uint64_t at = (place + i) % places;
        if ((i == 0 || at % a->n == 0) && word_of(a->k, a->n, at / a->n + 1, word, a->n) != 0) return 0;
        if (marks[i] != word[at % a->n]) return 0;
    }
    return 1;
}

static int sound_short_mark(const struct ask *a, uint64_t mark) {
    uint8_t one = (uint8_t)mark;
    return mark < a->k && on_short_ring(a, a->number, 1, &one);
}

/* the head, then lines of at most so many digits, which, read on over the lines' ends, are the printed marks in every row */
static int sound_picture(const struct ask *a, const uint8_t *file) {
    static uint8_t marks[WIDEST];
    char head[64];
    size_t length = picture_length(a), at = picture_head(a, head, sizeof head), in_line = 0;
    uint64_t digits = 0;
    if (memcmp(file, head, at) != 0 || print_marks(a->k, a->n, a->number, a->marks, marks, a->marks) != 0) return 0;
    for (; at < length; at++) {
        if (file[at] == '\n') {
            if (in_line == 0 || (in_line < LINE && digits % a->marks != 0)) return 0;
            in_line = 0;
        } else if (++in_line > LINE || file[at] != '0' + marks[digits++ % a->marks]) {
            return 0;
        }
    }
    return digits == a->marks * a->height && in_line == 0;
}

/* section, distance and rail are those of the window there, which agrees with what was read, and no filling is laid at a lower place */
static int sound_smudged(const struct ask *a, const uint8_t *answer) {
    uint8_t right[LAYING], window[LONGEST];
    uint64_t section = number_in(answer, 2), k = a->plan[0], n = a->plan[1];
    if (section >= number_in(a->plan + 2, 2)) return 0;
    uint64_t place = number_in(a->plan + HEAD + entry_of(a->plan, a->plan_length) * section, 8) + number_in(answer + 2, 8);
    if (!laid(a, place, right) || memcmp(answer, right, LAYING) != 0 || print_marks(k, n, place, n, window, n) != 0) return 0;
    for (size_t i = 0; i < n; i++)
        if (a->input[i] != UNREAD && a->input[i] != window[i]) return 0;
    if (choices < ENOUGH) choices += (unsigned)fits(a, place + 1, UINT64_MAX);
    return !fits(a, 0, place);
}

/* each entry is right, and behind the one before by its change in shade, its mark and its new shade; as the count is right too, none is missing */
static int sound_list(const struct ask *a, const uint8_t *list, size_t length) {
    uint8_t right[CHANGE];
    uint64_t before = 0;
    for (const uint8_t *entry = list; entry < list + length; entry += CHANGE) {
        uint64_t mark = entry[0], shade = entry[1];
        if (mark >= a->plan[1] || !misread(a, mark, shade, right) || memcmp(entry, right, CHANGE) != 0) return 0;
        uint64_t apart = shade > a->input[mark] ? shade - a->input[mark] : a->input[mark] - shade, order = apart << 16 | mark << 8 | shade;
        if (order <= before) return 0;
        before = order;
    }
    return 1;
}

/* a thousand marks cost as many cents as one costs thousandths; what the marks left over cost is raised to whole cents */
static int sound_bill(const struct ask *a, uint64_t bill) {
    uint64_t cents = 0;
    for (size_t at = HEAD; at < a->plan_length; at += entry_of(a->plan, a->plan_length)) {
        uint64_t size = number_in(a->plan + at + 8, 8), left = size % 1000 * a->price;
        cents += size / 1000 * a->price + left / 1000 + (left % 1000 != 0) + a->charge;
    }
    return bill == cents && bill <= STRIP_MOST_BILL;
}

static int sound(const struct ask *a, const uint8_t *answer, size_t length) {
    round_trips[a->call]++;
    switch (a->call) {
    case TURN: return sound_turn(a, number_in(answer, 8));
    case RANK: return sound_rank(a, number_in(answer, 8));
    case WORD: return sound_word(a, answer);
    case MARK: return sound_mark(a, number_in(answer, 8));
    case PLACE: return sound_place(a, number_in(answer, 8));
    case PRINT: return sound_print(a, answer);
    case SHORT_MARK: return sound_short_mark(a, number_in(answer, 8));
    case SHORT_PLACE: return on_short_ring(a, number_in(answer, 8), a->n, a->input);
    case SHORT_PRINT: return on_short_ring(a, a->number, a->marks, answer);
    case PICTURE: return sound_picture(a, answer);
    case SMUDGED: return sound_smudged(a, answer);
    case MISREAD: return sound_list(a, answer, length);
    case BILL: return sound_bill(a, number_in(answer, 8));
    }
    uint8_t right[LAYING];
    return laid(a, place_by_library(a->plan[0], a->plan[1], a->input), right) && memcmp(answer, right, LAYING) == 0;
}

/* One call */

static unsigned call(const struct ask *a, const uint8_t *input, const uint8_t *plan, const struct lent *count, const struct lent *tray) {
    switch (a->call) {
    case TURN: return turn_of(a->k, a->n, input, a->input_length, tray->bytes, tray->length);
    case RANK: return rank_of(a->k, a->n, input, a->input_length, tray->bytes, tray->length);
    case WORD: return word_of(a->k, a->n, a->number, tray->bytes, tray->length);
    case MARK: return mark_at(a->k, a->n, a->number, tray->bytes, tray->length);
    case PLACE: return place_of(a->k, a->n, input, a->input_length, tray->bytes, tray->length);
    case PRINT: return print_marks(a->k, a->n, a->number, a->marks, tray->bytes, tray->length);
    case SHORT_MARK: return short_mark_at(a->k, a->n, a->number, tray->bytes, tray->length);
    case SHORT_PLACE: return short_place_of(a->k, a->n, input, a->input_length, tray->bytes, tray->length);
    case SHORT_PRINT: return short_print_marks(a->k, a->n, a->number, a->marks, tray->bytes, tray->length);
    case PICTURE: return picture_of(a->k, a->n, a->number, a->marks, a->height, count->bytes, count->length, tray->bytes, tray->length);
    case SMUDGED: return look_up_smudged(plan, a->plan_length, input, a->input_length, tray->bytes, tray->length);
    case MISREAD: return misreadings_of(plan, a->plan_length, input, a->input_length, count->bytes, count->length, tray->bytes, tray->length);
    case BILL: return bill_of(plan, a->plan_length, a->price, a->charge, tray->bytes, tray->length);
    }
    return look_up(plan, a->plan_length, input, a->input_length, tray->bytes, tray->length);
}

static void try_call(const struct ask *a) {
    static uint8_t answer[MOST_TRAY];
    size_t needed = answer_length(a);
    unsigned wanted = first_of(faults_of(a, needed));
    struct lent input = lend_copy(input_room, a->input, a->input_length, a->kind);
    struct lent plan = lend_copy(plan_room, a->plan, a->plan_length, a->kind);
    struct lent tray = lend(tray_room, a->tray_length, a->kind);
    struct lent count = lend(count_room, a->count_length, a->kind);
    unsigned given = call(a, input.bytes, plan.bytes, &count, &tray);
    size_t length = wanted == 0 && given == 0 ? needed : 0;
    uint8_t told[NUMBER];
    put_number(told, a->call == MISREAD ? length / CHANGE : length, NUMBER);
    if (length != 0) memcpy(answer, tray.bytes, length);
    if (given != wanted) fail(a, "number", given, wanted);
    else if (!holds(&tray, answer, length)) fail(a, "a byte that must stay", given, wanted);
    else if (!holds(&count, told, has_count(a->call) && given == 0 ? NUMBER : 0)) fail(a, "the count", given, wanted);
    else if (!holds(&input, a->input, a->input_length) || !holds(&plan, a->plan, a->plan_length)) fail(a, "an input", given, wanted);
    else if (given == 0 && !sound(a, answer, length)) fail(a, "answer", given, wanted);
    refused[wanted]++;
    give_back(&input);
    give_back(&plan);
    give_back(&tray);
    give_back(&count);
}

/* with trays of no bytes, one too few, exact, and more; in every kind of memory; each with every length of the tray for a count */
static const size_t COUNT_LENGTHS[4] = {NUMBER, NUMBER - 1, NUMBER + 3, 0};

static void try_trays(struct ask a) {
    size_t needed = answer_length(&a), exact = needed <= 64 ? needed : 64;
    size_t lengths[] = {0, exact == 0 ? 0 : exact - 1, exact, exact + 3, 80};
    for (size_t i = 0; i < sizeof lengths / sizeof *lengths; i++)
        for (a.kind = 0; a.kind < KINDS; a.kind++) {
            a.tray_length = lengths[i];
            a.count_length = COUNT_LENGTHS[(i + (size_t)a.kind) % 4];
            try_call(&a);
        }
}

/* Numbers drawn with a fixed seed */

static uint64_t seed = 20261115;

static uint64_t draw(void) {
    uint64_t x = seed += 0x9e3779b97f4a7c15ull;
    x = (x ^ x >> 30) * 0xbf58476d1ce4e5b9ull;
    x = (x ^ x >> 27) * 0x94d049bb133111ebull;
    return x ^ x >> 31;
}

static uint64_t below(uint64_t limit) {
    return limit == 0 ? 0 : draw() % limit;
}

/* Every set of refusals that can apply together */

static const uint64_t STRIPS[][2] = {
    {3, 4}, {2, 6}, {36, 11}, {2, 60}, {2, 1}, {0, 4}, {1, 4}, {37, 1}, {3, 0}, {2, 61}, {36, 12}, {4, 31}, {0, 0},
    {(1ull << 32) + 3, 4}, {3, (1ull << 32) + 4}, {256 + 2, 6}, {2, 256 + 6}, {UINT64_MAX, 4}, {3, UINT64_MAX}, {UINT64_MAX, UINT64_MAX}};
static const uint64_t NUMBERS[] = {0, 1, 2, 8, 9, 63, 64, 80, 81, 1ull << 60, (1ull << 60) - 1, 1ull << 63, UINT64_MAX};

/* widths and heights of pictures: small ones, and ones outside the limits */
static const uint64_t SIZES[][2] = {{1, 1}, {5, 2}, {40, 1}, {1, 11}, {0, 1}, {1, 0}, {60001, 1}, {1, 65}, {65537, 1}, {1, 257}, {(1ull << 32) + 1, 1},
                                    {1, (1ull << 32) + 1}, {0, 0}, {UINT64_MAX, UINT64_MAX}};

static void all_pictures(struct ask a) {
    a.call = PICTURE;
    for (size_t i = 0; i < sizeof SIZES / sizeof *SIZES; i++) {
        a.marks = SIZES[i][0];
        a.height = SIZES[i][1];
        try_trays(a);
    }
}

/* a place or an index, whatever is asked with it */
static void all_calls_at(struct ask a, uint64_t number) {
    a.number = number;
    for (a.call = 0; a.call < CALLS; a.call++) {
        if (a.call != WORD && (!takes_a_place(a.call) || a.call == PICTURE)) continue;
        for (size_t m = 0; m < (prints(a.call) ? sizeof NUMBERS / sizeof *NUMBERS : 1); m++) {
            a.marks = prints(a.call) ? NUMBERS[m] : 0;
            try_trays(a);
        }
    }
    a.marks = 0;
    all_pictures(a);
}

/* words: of zeros, with a bad mark at its end or its start, of bad ones alone, that is no shorter one repeated, and 01 repeated, the 1 good or bad */
enum { ALL_ZERO, BAD_LAST, BAD_FIRST, ALL_BAD, UNREPEATED, REPEATED, BAD_REPEATED, FILLINGS };

static void fill_word(uint8_t *word, size_t length, uint64_t k, int filling) {
    uint8_t bad = k > 255 ? 255 : (uint8_t)k;
    memset(word, filling == ALL_BAD ? 255 : 0, MOST_WORD);
    if (filling == BAD_LAST && length != 0) word[length - 1] = bad;
    if (filling == BAD_FIRST) word[0] = 255;
    if (filling == UNREPEATED) word[0] = 1;
    for (size_t i = 1; i < length && filling >= REPEATED; i += 2) word[i] = filling == REPEATED ? 1 : bad;
}

static void all_sets(void) {
    uint8_t word[MOST_WORD];
    for (size_t s = 0; s < sizeof STRIPS / sizeof *STRIPS; s++) {
        struct ask a = {.k = STRIPS[s][0], .n = STRIPS[s][1], .input = word};
        size_t right = a.n <= 64 ? (size_t)a.n : 4;
        size_t lengths[] = {right, right + 1, right == 0 ? 0 : right - 1, 0, 90};
        for (int l = 0; l < 5; l++)
            for (int filling = 0; filling < FILLINGS; filling++) {
                a.input_length = lengths[l];
                fill_word(word, lengths[l], a.k, filling);
                for (a.call = 0; a.call < CALLS; a.call++)
                    if (takes_a_word(a.call)) try_trays(a);
            }
        a.input_length = 0;
        for (size_t i = 0; i < sizeof NUMBERS / sizeof *NUMBERS; i++) all_calls_at(a, NUMBERS[i]);
        for (int call = PRINT; call <= SHORT_PRINT; call += SHORT_PRINT - PRINT)
            for (uint64_t near = 0; near < 3; near++) all_calls_at(a, places_for(call, a.k, a.n) - 1 + near);
    }
}

/* no section, good ones, and ones that break a rule; the count stands first */
static const uint64_t SECTIONS[][5] = {{0},           {2, 0, 6, 8, 8},  {1, 12, 4},         {1, 0, 3},
                                       {1, 13, 4},    {2, 0, 8, 7, 5},  {2, 8, 4, 0, 4},    {1, UINT64_MAX, 4},
                                       {1, 4, UINT64_MAX - 3}, {2, 0, 4, 4, UINT64_MAX}, {1, 16, 0}, {1, 0, 17}};
static const uint8_t PLAN_STRIPS[][2] = {{2, 4}, {1, 4}, {2, 0}, {2, 61}, {0, 0}, {255, 255}};

/* tears a record: its end cut or longer, another count of sections */
static size_t tear(uint8_t *plan, size_t length, size_t entry, int how) {
    uint64_t m = count_in(plan);
    switch (how) {
    case 1: return length - 1;
    case 2: return length + 1;
    case 3: return length + entry;
    case 4: return 3;
    case 5: return 0;
    case 6: put_number(plan + 2, m + 1, 2); break;
    case 7: put_number(plan + 2, m + 256, 2); break;
    case 8: put_number(plan + 2, 501, 2); return HEAD + entry * 501;
    case 9: put_number(plan + 2, 65535, 2); break;
    }
    return length;
}

/* windows with their length first: so many for look_up, the others with marks that were not read; torn records are tried with a call's own. Misreadings
   are asked of look_up's and one more, of torn records with some of these */
enum { PLAIN = 9 };
static const uint8_t WINDOWS[][6] = {{4, 0, 0, 0, 0}, {4, 1, 1, 0, 0}, {4, 1, 1, 1, 1}, {3}, {5}, {0}, {4, 0, 0, 0, 2}, {3, 255}, {5, 2, 2},
                                     {4, 255, 0, 0, 255}, {4, 1, 255, 1, 255}, {4, 1, 0, 0, 255}, {4, 255, 2, 0, 0}, {4, 254, 255, 0, 0},
                                     {4, 255, 255, 255, 0}, {4, 255, 2, 255, 255}, {3, 255, 255, 255}, {5, 255, 255, 255, 255, 2}};

enum { TEARS = 10 };

/* a plan of these sections, torn in one of the ways, or whole; its length */
static size_t torn_plan(const uint8_t *strip, const uint64_t *sections, size_t entry, int how, uint8_t *plan) {
    memset(plan, 0, MOST_PLAN);
    memcpy(plan, strip, 2);
    put_number(plan + 2, sections[0], 2);
    for (uint64_t i = 0; i < sections[0]; i++) put_entry(plan, entry, i, sections[1 + 2 * i], sections[2 + 2 * i], 65535 - i);
    return tear(plan, HEAD + entry * (size_t)sections[0], entry, how);
}

static void plan_sets(const uint8_t *strip, const uint64_t *sections, size_t entry) {
    static uint8_t plan[MOST_PLAN];
    for (int how = 0; how < TEARS; how++)
        for (size_t w = 0; w < sizeof WINDOWS / sizeof *WINDOWS; w++) {
            struct ask a = {.call = LOOK, .plan = plan, .input = WINDOWS[w] + 1, .input_length = WINDOWS[w][0]};
            a.plan_length = torn_plan(strip, sections, entry, how, plan);
            if (how == 0 || w < PLAIN) try_trays(a);
            a.call = SMUDGED;
            if (how == 0 || w >= PLAIN) try_trays(a);
            a.call = MISREAD;
            if (w <= PLAIN && (how == 0 || (w + (size_t)how) % 4 == 0)) try_trays(a);
        }
}

static void all_plan_sets(void) {
    for (size_t p = 0; p < sizeof PLAN_STRIPS / 2; p++)
        for (size_t s = 0; s < sizeof SECTIONS / sizeof *SECTIONS; s++)
            for (size_t entry = PAIR; entry <= RAILED; entry += RAILED - PAIR) plan_sets(PLAN_STRIPS[p], SECTIONS[s], entry);
}

/* for bills also sections of which some are too long, on a strip that has room for them, and on one that has not; and prices with charges, the first few
   tried with torn records too */
static const uint64_t ROLLS[][5] = {{1, 0, 1001},
                                    {2, 0, MOST_ROLL, MOST_ROLL, MOST_ROLL},
                                    {1, 0, MOST_ROLL + 1},
                                    {2, 0, 64, 64, MOST_ROLL + 1},
                                    {2, 0, MOST_ROLL + 1, 1ull << 33, 64},
                                    {2, 0, MOST_ROLL + 1, 64, 64}};
static const uint8_t ROLL_STRIPS[][2] = {{2, 60}, {36, 11}};
enum { ON_TORN = 4 };
static const uint64_t PRICES[][2] = {{1, 5}, {MOST_PRICE + 1, 0},      {0, MOST_CHARGE + 1},      {UINT64_MAX, UINT64_MAX}, {0, 0}, {MOST_PRICE, MOST_CHARGE},
                                     {999, 1}, {(1ull << 32) + 1, 0}, {MOST_CHARGE, MOST_PRICE}, {1, UINT64_MAX}};

static void bill_sets(const uint8_t *strip, const uint64_t *sections, size_t entry) {
    static uint8_t plan[MOST_PLAN];
    for (int how = 0; how < TEARS; how++)
        for (size_t p = 0; p < (how == 0 ? sizeof PRICES / sizeof *PRICES : ON_TORN); p++) {
            struct ask a = {.call = BILL, .plan = plan, .price = PRICES[p][0], .charge = PRICES[p][1]};
            a.plan_length = torn_plan(strip, sections, entry, how, plan);
            try_trays(a);
        }
}

static void all_bill_sets(void) {
    size_t strips = sizeof PLAN_STRIPS / 2, sections = sizeof SECTIONS / sizeof *SECTIONS;
    for (size_t p = 0; p < strips + sizeof ROLL_STRIPS / 2; p++)
        for (size_t s = 0; s < sections + sizeof ROLLS / sizeof *ROLLS; s++)
            for (size_t entry = PAIR; entry <= RAILED; entry += RAILED - PAIR)
                bill_sets(p < strips ? PLAN_STRIPS[p] : ROLL_STRIPS[p - strips], s < sections ? SECTIONS[s] : ROLLS[s - sections], entry);
}

/* Every section of a plan looked for, and every pair of numbers broken alone */

static const uint64_t SPREAD_STRIPS[][2] = {{2, 16}, {36, 11}, {2, 60}};
static const uint64_t COUNTS[] = {0, 1, 2, 3, MOST_SECTIONS};
enum { EARLY, NARROW, BEYOND, LONG, WRAPPING, WAYS };

/* m sections over the whole strip: some touch the next, some leave a gap of one mark, of n or of more; of those that touch some share a rail */
static size_t spread(uint64_t k, uint64_t n, uint64_t m, uint8_t *plan, size_t entry) {
    uint64_t places, gaps[] = {0, 1, n, n + 5};
    admitted(k, n, &places);
    plan[0] = (uint8_t)k;
    plan[1] = (uint8_t)n;
    put_number(plan + 2, m, 2);
    for (uint64_t i = 0; i < m; i++) put_entry(plan, entry, i, i * (places / m), places / m - gaps[i % 4], i % 3 == 0 ? 65535 : 256);
    return HEAD + entry * (size_t)m;
}

/* one or two marks of a window that were not read; two of many shades are tried rarely, since that takes a place for each pair of shades */
static void smudge(uint64_t k, uint8_t *window, size_t length) {
    window[below(length)] = UNREAD;
    if (below(k <= 8 ? 2 : 32) == 0) window[below(length)] = UNREAD;
}

/* a window of the plan's strip; the trays are just as long as the answer */
static void look_for(struct ask *a, const uint8_t *window) {
    a->input = window;
    a->input_length = a->plan[1];
    a->kind = (a->kind + 1) % KINDS;
    a->tray_length = answer_length(a);
    a->count_length = NUMBER;
    try_call(a);
}

/* the window at a place, with marks unread if the call takes that */
static void look_at(struct ask *a, uint64_t place) {
    static uint8_t window[LONGEST];
    uint64_t k = a->plan[0], n = a->plan[1], places;
    admitted(k, n, &places);
    print_marks(k, n, place % places, n, window, n);
    if (a->call == SMUDGED) smudge(k, window, (size_t)n);
    look_for(a, window);
}

/* the plan's bill, whatever is asked of it else; the tray is just as long as the answer */
static void bill_for(struct ask a, const uint64_t *price) {
    static unsigned bills;
    a.call = BILL;
    a.price = price[0];
    a.charge = price[1];
    a.kind = (int)(bills++ % KINDS);
    a.tray_length = NUMBER;
    try_call(&a);
}

/* at a section's first and last mark, at its last window, at one that ends behind it by a mark or by half of them, and behind it */
static void each_section(struct ask *a, size_t stride) {
    look_at(a, 0);
    look_at(a, UINT64_MAX);
    for (size_t at = HEAD; at < a->plan_length; at += entry_of(a->plan, a->plan_length) * stride) {
        uint64_t start = number_in(a->plan + at, 8), end = start + number_in(a->plan + at + 8, 8);
        uint64_t spots[] = {start, end - 1, end - a->plan[1], end - a->plan[1] + 1, end - a->plan[1] / 2, end};
        for (size_t i = 0; i < sizeof spots / sizeof *spots; i++) look_at(a, spots[i]);
    }
}

/* a pair that begins before the one ahead ends, is too short, begins or ends behind the strip, or has a sum that does not fit 64 bits */
static void break_pair(uint8_t *pair, size_t entry, int way, uint64_t n, uint64_t places) {
    uint64_t offset = number_in(pair, 8);
    switch (way) {
    case EARLY: put_number(pair, number_in(pair - entry, 8) + number_in(pair - entry + 8, 8) - 1, 8); break;
    case NARROW: put_number(pair + 8, n - 1, 8); break;
    case BEYOND: put_number(pair, places + 1, 8); break;
    case LONG: put_number(pair + 8, places - offset + 1, 8); break;
    case WRAPPING: put_number(pair + 8, UINT64_MAX - offset + 1, 8); break;
    }
}

static void each_pair(struct ask *a, uint8_t *plan) {
    uint8_t pair[PAIR];
    uint64_t places;
    size_t entry = entry_of(plan, a->plan_length);
    admitted(plan[0], plan[1], &places);
    for (size_t at = HEAD; at < a->plan_length; at += entry)
        for (int way = at == HEAD ? EARLY + 1 : EARLY; way < WAYS; way++) {
            memcpy(pair, plan + at, PAIR);
            break_pair(plan + at, entry, way, plan[1], places);
            if (plan_faults(plan, a->plan_length) != 1u << 8) fail(a, "a pair that is not broken", 0, 8);
            look_at(a, 0);
            bill_for(*a, PRICES[0]);
            memcpy(plan + at, pair, PAIR);
        }
}

static void all_sections(void) {
    static uint8_t plan[MOST_PLAN];
    for (size_t s = 0; s < sizeof SPREAD_STRIPS / sizeof *SPREAD_STRIPS; s++)
        for (size_t m = 0; m < sizeof COUNTS / sizeof *COUNTS; m++)
            for (size_t entry = PAIR; entry <= RAILED; entry += RAILED - PAIR) {
                struct ask a = {.call = LOOK, .plan = plan};
                a.plan_length = spread(SPREAD_STRIPS[s][0], SPREAD_STRIPS[s][1], COUNTS[m], plan, entry);
                each_section(&a, 1);
                each_pair(&a, plan);
                a.call = SMUDGED;
                each_section(&a, 7); /* slow, so only some, with gaps of every kind */
                a.call = MISREAD;
                each_section(&a, 125); /* slower still: one for each kind of gap */
            }
}

/* Every section of a plan that is billed as long as may be, and longer by a mark, among others that are short or as long as may be */

static const uint64_t ROLL_COUNTS[] = {1, 2, 3, MOST_SECTIONS};

static void each_roll(const uint8_t *strip, uint64_t m, size_t entry, uint64_t others) {
    static uint8_t plan[MOST_PLAN];
    struct ask a = {.plan = plan};
    a.plan_length = spread(strip[0], strip[1], m, plan, entry);
    for (uint8_t *size = plan + HEAD + 8; size < plan + a.plan_length; size += entry) put_number(size, others, 8);
    for (size_t p = 0; p < sizeof PRICES / sizeof *PRICES; p++) bill_for(a, PRICES[p]);
    for (uint8_t *size = plan + HEAD + 8; size < plan + a.plan_length; size += entry) {
        for (uint64_t longer = 0; longer < 2; longer++) {
            put_number(size, MOST_ROLL + longer, 8);
            for (size_t p = 0; p < ON_TORN; p++) bill_for(a, PRICES[p]);
        }
        put_number(size, others, 8);
    }
}

static void all_rolls(void) {
    for (size_t s = 0; s < sizeof ROLL_STRIPS / 2; s++)
        for (size_t m = 0; m < sizeof ROLL_COUNTS / sizeof *ROLL_COUNTS; m++)
            for (size_t entry = PAIR; entry <= RAILED; entry += RAILED - PAIR) {
                each_roll(ROLL_STRIPS[s], ROLL_COUNTS[m], entry, 1001);
                each_roll(ROLL_STRIPS[s], ROLL_COUNTS[m], entry, MOST_ROLL);
            }
}

/* A window alone in a plan, with one mark unread, or two: it is found, whichever of the fillings it is, the first and the last among them */

enum { LONE = 16 };

static void lone_window(uint64_t k, uint64_t n, uint64_t shade) {
    uint8_t plan[HEAD + PAIR] = {(uint8_t)k, (uint8_t)n, 0, 1}, window[LONGEST];
    struct ask a = {.call = SMUDGED, .plan = plan, .plan_length = sizeof plan};
    size_t one = (size_t)below(n), other = (size_t)below(n);
    for (size_t i = 0; i < n; i++) window[i] = (uint8_t)below(k);
    window[one] = window[other] = (uint8_t)shade;
    put_entry(plan, PAIR, 0, place_by_library(k, n, window), n, 0);
    window[one] = window[other] = UNREAD;
    look_for(&a, window);
}

static void lone_windows(void) {
    for (size_t s = 0; s < sizeof SPREAD_STRIPS / sizeof *SPREAD_STRIPS; s++)
        for (int i = 0; i < LONE; i++) {
            uint64_t k = SPREAD_STRIPS[s][0], shades[] = {0, k - 1, below(k)};
            lone_window(k, SPREAD_STRIPS[s][1], shades[i % 3]);
        }
}

/* Every plan of up to two sections, and every one whose sections, up to six, meet from the first place to the last, on small strips, as an old record and
   as one with two rails: all windows, also all with one or two marks unread */

enum { SMALL = 16, MOST_TILES = 6 };

/* the window at a place with one mark unread, or two: only if they are 0, as every smudged window is met so, and once */
static void look_smudged_at(struct ask *a, uint64_t place) {
    static uint8_t window[LONGEST];
    size_t n = a->plan[1];
    a->call = SMUDGED;
    print_marks(a->plan[0], n, place, n, window, n);
    for (size_t i = 0; i < n; i++)
        for (size_t j = i; j < n; j++) {
            if (window[i] != 0 || window[j] != 0) continue;
            window[i] = window[j] = UNREAD;
            look_for(a, window);
            window[i] = window[j] = 0;
        }
}

/* a list asks for the place of each change, so lists only in some of the plans */
static void look_everywhere(struct ask *a, uint64_t places) {
    static unsigned long plans;
    int with_lists = plans++ % 5 == 0;
    for (uint64_t place = 0; place < places; place++) {
        a->call = LOOK;
        look_at(a, place);
        look_smudged_at(a, place);
        a->call = MISREAD;
        if (with_lists) look_at(a, place);
    }
}

/* looks, then lays one more section from a place on; if sections are to meet, just there, and it looks when they reach the last place */
static void lay_on(struct ask *a, uint8_t *plan, size_t entry, uint64_t from, uint64_t places, uint64_t most, int meet) {
    uint64_t m = count_in(plan), last = meet ? from : places;
    a->plan_length = HEAD + entry * (size_t)m;
    if (!meet || from == places) look_everywhere(a, places);
    if (m == most) return;
    for (uint64_t offset = from; offset <= last; offset++)
        for (uint64_t size = plan[1]; size <= places - offset; size++) {
            put_number(plan + 2, m + 1, 2);
            put_entry(plan, entry, m, offset, size, (offset + size) % 3 == 0 ? 65535 : 0);
            lay_on(a, plan, entry, offset + size, places, most, meet);
        }
    put_number(plan + 2, m, 2);
}

static void all_joints(void) {
    static uint8_t plan[MOST_PLAN];
    struct ask a = {.plan = plan};
    uint64_t places;
    for (uint64_t n = 1; n <= LONGEST; n++)
        for (uint64_t k = 2; k <= SHADES && admitted(k, n, &places) && places <= SMALL; k++) {
            memset(plan, 0, sizeof plan);
            plan[0] = (uint8_t)k;
            plan[1] = (uint8_t)n;
            for (size_t entry = PAIR; entry <= RAILED; entry += RAILED - PAIR) {
                lay_on(&a, plan, entry, 0, places, 2, 0);
                lay_on(&a, plan, entry, 0, places, MOST_TILES, 1);
            }
        }
}

/* Inputs drawn with a fixed seed */

/* a number of any size, small ones as often as large ones */
static uint64_t draw_any(void) {
    uint64_t shift = below(64);
    return draw() >> shift;
}

/* a strip: mostly admitted, else near the limits or far off */
static void draw_strip(uint64_t *k, uint64_t *n) {
    uint64_t places;
    switch (below(8)) {
    case 0: *k = below(81), *n = below(81); break;
    case 1: *k = draw_any(), *n = below(2) ? below(61) : draw_any(); break;
    default:
        do *k = 2 + below(35), *n = 1 + below(below(2) ? 60 : 8);
        while (!admitted(*k, *n, &places));
    }
}

/* a word: mostly right; any shades, many of the largest, many of the smallest, or a shorter word repeated */
static size_t draw_word(uint64_t k, uint64_t n, uint8_t *word) {
    size_t length = below(8) == 0 || n > 64 ? below(81) : (size_t)n;
    uint64_t shades = k == 0 || k > 255 ? 256 : k, style = below(4), root = 1 + below(n == 0 || n > 64 ? 6 : n);
    for (size_t i = 0; i < length; i++) {
        word[i] = (uint8_t)below(shades);
        if (style == 1 && below(4) != 0) word[i] = (uint8_t)(shades - 1);
        if (style == 2 && below(4) != 0) word[i] = 0;
        if (style == 3 && i >= root) word[i] = word[i - root];
    }
    if (length != 0 && below(12) == 0) word[below(length)] = (uint8_t)below(256);
    if (below(40) == 0)
        for (size_t i = 0; i < length; i++) word[i] = (uint8_t)draw();
    return length;
}

static uint64_t draw_number(uint64_t limit) {
    switch (below(6)) {
    case 0: return draw_any();
    case 1: return limit - 2 + below(4);
    case 2: return below(4);
    default: return below(limit);
    }
}

/* a plan that keeps the rules, if its strip is admitted; in a new record most rails are the same */
static size_t draw_good_plan(uint64_t k, uint64_t n, uint8_t *plan) {
    uint64_t places, start = 0, m = 0, most = below(6) == 0 ? 500 : below(6), rare = 4 + most;
    size_t entry = below(2) ? PAIR : RAILED;
    if (!admitted(k, n, &places)) places = 1000;
    if (below(2)) start = below(places);
    while (m < most && start <= places && n <= places - start) {
        uint64_t room = places - start, times = below(3), size = n + times * below(2 * n + 1);
        if (below(rare) == 0) size = n + below(room / 2 + 1);
        if (size > room) size = room;
        put_entry(plan, entry, m, start, size, below(4) == 0 ? below(65536) : 7);
        uint64_t gap = below(below(rare) == 0 ? room : n + 2);
        start += size + (below(2) ? gap : 0);
        m++;
    }
    plan[0] = (uint8_t)k;
    plan[1] = (uint8_t)n;
    put_number(plan + 2, m, 2);
    return HEAD + entry * (size_t)m;
}

/* a good plan, one with a few bytes or its end changed, or junk */
static size_t draw_plan(uint64_t k, uint64_t n, uint8_t *plan) {
    size_t length = draw_good_plan(k, n, plan);
    uint64_t style = below(8);
    if (style == 0) {
        length = below(below(2) ? 8 : 400);
        for (size_t i = 0; i < length; i++) plan[i] = (uint8_t)draw();
    } else if (style == 1) {
        for (uint64_t i = 1 + below(3); i > 0; i--) plan[below(length)] = (uint8_t)draw();
    } else if (style == 2 && length > HEAD) {
        size_t at = HEAD + entry_of(plan, length) * (size_t)below(count_in(plan));
        if (below(2)) at += 8;
        put_number(plan + at, below(2) ? draw_any() : number_in(plan + at, 8) - n + below(2 * n + 1), 8);
    } else if (style == 3) {
        length = below(2) ? below(length) : length + 1 + below(20);
    }
    return length;
}

/* a good plan with few sections that have most of the strip, so that most changes of a mark, and most fillings, are laid; of a strip that is too
   short, or none, any plan */
static size_t draw_wide_plan(uint64_t k, uint64_t n, uint8_t *plan) {
    uint64_t places, m = 1 + below(4);
    if (!admitted(k, n, &places) || places / m < 2 * n + 5) return draw_plan(k % 256, n % 256, plan);
    return spread(k, n, m, plan, below(2) ? PAIR : RAILED);
}

/* a wide plan with its sections cut, so that most can be billed; some are as long as may be, or longer by a mark */
static size_t draw_rolls(uint64_t k, uint64_t n, uint8_t *plan) {
    size_t length = draw_wide_plan(k, n, plan);
    if (plan_faults(plan, length) != 0) return length;
    for (size_t at = HEAD + 8; at < length; at += entry_of(plan, length)) {
        uint64_t most = below(8) == 0 ? MOST_ROLL + below(2) : plan[1] + draw_any() % MOST_ROLL;
        if (number_in(plan + at, 8) > most) put_number(plan + at, most, 8);
    }
    return length;
}

static void draw_bill(struct ask *a, uint8_t *plan) {
    a->plan_length = below(2) ? draw_rolls(a->k, a->n, plan) : draw_plan(a->k % 256, a->n % 256, plan);
    a->price = draw_number(MOST_PRICE + 1);
    a->charge = draw_number(MOST_CHARGE + 1);
}

/* a window that is often one of the plan: at a section's start, its end or across it */
static size_t draw_window(const uint8_t *plan, size_t length, uint8_t *window) {
    uint64_t places, n = length >= HEAD ? plan[1] : 3, k = length >= HEAD ? plan[0] : 3;
    if (plan_faults(plan, length) != 0 || length == HEAD || below(4) == 0) return draw_word(k, n, window);
    size_t at = HEAD + entry_of(plan, length) * (size_t)below(count_in(plan));
    uint64_t start = number_in(plan + at, 8), size = number_in(plan + at + 8, 8);
    uint64_t spots[] = {start, start + size - n, start + size - n + 1, start + below(size), start + size};
    admitted(k, n, &places);
    print_marks(k, n, spots[below(5)] % places, n, window, n);
    return (size_t)n - (below(16) == 0);
}

/* mostly so many unread marks as are taken, at times none or too many */
static void draw_smudge(uint64_t k, uint8_t *window, size_t length) {
    if (length == 0 || below(4) == 0) return;
    smudge(k, window, length);
    for (int more = below(16) == 0 ? MOST_UNREAD : 0; more > 0; more--) window[below(length)] = UNREAD;
}

/* a picture: mostly of two shades and within the limits; most files are short */
static void draw_picture(struct ask *a) {
    uint64_t places;
    if (below(8) != 0) a->k = 2, a->n = 1 + below(60);
    admitted(a->k, a->n, &places);
    a->number = draw_number(places);
    a->marks = 1 + below(below(8) == 0 ? 2000 : 150);
    a->height = 1 + below(below(8) == 0 ? HIGHEST + 2 : 4);
    if (below(16) == 0) a->marks = draw_any();
    if (below(16) == 0) a->height = draw_any();
}

/* a window for the place on the short ring: often one that stands there, at a word's start, over its end, or over the ring's */
static size_t draw_ring_window(uint64_t k, uint64_t n, uint8_t *window) {
    uint64_t places = places_for(SHORT_MARK, k, n);
    if (places == 0 || below(2)) return draw_word(k, n, window);
    uint64_t place = below(4) == 0 ? places - 1 - below(n) : below(places);
    short_print_marks(k, n, below(4) == 0 ? place / n * n : place, n, window, n);
    return (size_t)n;
}

static void draw_call(void) {
    static uint8_t word[256], plan[MOST_PLAN];
    uint64_t places;
    struct ask a = {.input = word, .plan = plan, .kind = (int)below(KINDS)};
    a.call = (int)below(CALLS);
    draw_strip(&a.k, &a.n);
    if (takes_a_word(a.call)) a.input_length = a.call == SHORT_PLACE ? draw_ring_window(a.k, a.n, word) : draw_word(a.k, a.n, word);
    if (a.call == WORD) a.number = draw_number(admitted(a.k, a.n, &places) ? lyndon_count(a.k, a.n) : 100);
    if (takes_a_place(a.call)) a.number = draw_number(places_for(a.call, a.k, a.n));
    if (prints(a.call)) a.marks = below(8) == 0 ? draw_any() : below(below(8) == 0 ? 2000 : 100);
    if (a.call == BILL) draw_bill(&a, plan);
    if (looks_in_a_plan(a.call)) {
        a.plan_length = a.call != LOOK && below(2) ? draw_wide_plan(a.k, a.n, plan) : draw_plan(a.k % 256, a.n % 256, plan);
        a.input_length = draw_window(plan, a.plan_length, word);
    }
    if (a.call == SMUDGED) draw_smudge(a.k, word, a.input_length);
    if (a.call == PICTURE) draw_picture(&a);
    if (has_count(a.call)) a.count_length = below(8) == 0 ? below(MOST_COUNT) : NUMBER;
    size_t most = has_count(a.call) ? MOST_TRAY - 64 : 2000, needed = answer_length(&a), exact = needed < most ? needed : most;
    size_t lengths[] = {exact, exact, exact + 1, exact + 3, exact + below(64), exact == 0 ? 0 : exact - 1, below(64), 0};
    a.tray_length = lengths[below(8)];
    try_call(&a);
}

/* numbers that were never given, calls that never answered, and whether choices were too few; 10, a lost cursor, is given by no call that C has */
static unsigned never_tried(void) {
    unsigned never = refused[0] == 0;
    for (size_t i = 0; i < sizeof ORDER / sizeof *ORDER; i++) never += ORDER[i] != 10 && refused[ORDER[i]] == 0;
    for (int call = 0; call < CALLS; call++) never += round_trips[call] == 0;
    return never + (choices < ENOUGH);
}

int main(int count, char **arguments) {
    unsigned long inputs = count > 1 ? strtoul(arguments[1], NULL, 10) : 400000, total = 0, answered = 0;
    input_room = make_room(256);
    plan_room = make_room(MOST_PLAN);
    tray_room = make_room(MOST_TRAY);
    count_room = make_room(MOST_COUNT);
    all_sets();
    all_plan_sets();
    all_bill_sets();
    all_sections();
    all_rolls();
    lone_windows();
    if (count == 1) all_joints();
    for (unsigned long i = 0; i < inputs; i++) draw_call();
    for (unsigned i = 0; i < BITS; i++) total += refused[i];
    for (int call = 0; call < CALLS; call++) answered += round_trips[call];
    printf("%lu hostile calls;", total);
    for (unsigned i = 0; i < BITS; i++)
        if (refused[i] != 0) printf(" number %u: %lu,", i, refused[i]);
    printf(" %lu answers tried by round trips, %lu calls wrong\n", answered, failures);
    if (never_tried() != 0) printf("a number is never given, a call never answers, or smudged windows hardly ever fit two laid ones\n");
    return failures != 0 || never_tried() != 0;
}
