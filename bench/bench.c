/* Measures the library's calls beside the same calls in C (plain.c, best.c) and memcpy, after checking that all give the same answers.
   Prints a line for each call and strip: call, k, n, then the time of plain C, of the best C and of memcpy as multiples of the library's
   ("-" where there is none). Each time is the least of several rounds, taken in turn. */
#include "bench.h"
#include <stdio.h>
#include <stdlib.h>
#include <time.h>

enum { TURN, RANK, PLACE, SHORT_PLACE, WORD, MARK, SHORT_MARK, LOOK, SMUDGED, MISREAD, BILL, PRINT, SHORT_PRINT, PICTURE, CALLS };
enum { LIBRARY, PLAIN, BEST, COPY, MAKERS };
enum { INPUTS = 64, ROUNDS = 15, PRINTED = 1 << 20, WIDTH = STRIP_MOST_WIDTH, HEIGHT = STRIP_MOST_HEIGHT, FILE_BYTES = STRIP_MOST_PICTURE };
static const char *const NAMES[CALLS] = {"turn_of", "rank_of",         "place_of",       "short_place_of", "word_of",     "mark_at",           "short_mark_at",
                                         "look_up", "look_up_smudged", "misreadings_of", "bill_of",        "print_marks", "short_print_marks", "picture_of"};
static const uint64_t STRIPS[][2] = {{2, 60}, {4, 30}, {36, 11}};

static uint64_t k, n, numbers[INPUTS], charges[INPUTS]; /* the numbers of bills are prices */
static uint8_t words[INPUTS][MOST], plan[4 + 18 * SECTIONS], printed[MAKERS][FILE_BYTES];

static uint64_t draw(void) {
    static uint64_t seed = 1;
    uint64_t x = seed += 0x9e3779b97f4a7c15ull;
    x = (x ^ x >> 30) * 0xbf58476d1ce4e5b9ull;
    x = (x ^ x >> 27) * 0x94d049bb133111ebull;
    return x ^ x >> 31;
}

/* in a plan that is billed they are shorter, as no roll may be too long */
static void lay_sections(int call) {
    uint64_t room = places_of(k, n) / SECTIONS;
    plan[0] = (uint8_t)k;
    plan[1] = (uint8_t)n;
    put_number(plan + 2, SECTIONS, 2);
    for (uint64_t i = 0; i < SECTIONS; i++) {
        uint8_t *at = plan + 4 + 18 * i;
        put_number(at, i * room, 8);
        put_number(at + 8, call == BILL ? n + draw() % (STRIP_MOST_ROLL - n) : room - i % 2 * (room / 8), 8);
        put_number(at + 16, i / 2, 2); /* the sections that meet have one rail */
    }
}

static void draw_word(uint8_t *word) {
    for (uint64_t j = 0; j < n; j++) word[j] = (uint8_t)(draw() % k);
}

static uint64_t limit_of(int call) {
    switch (call) {
    case WORD: return lyndon_count(k, n);
    case BILL: return STRIP_MOST_PRICE + 1;
    case SHORT_MARK:
    case SHORT_PRINT: return n * lyndon_count(k, n);
    }
    return places_of(k, n);
}

static void draw_inputs(int call) {
    uint64_t limit = limit_of(call), room = places_of(k, n) / SECTIONS;
    for (int i = 0; i < INPUTS; i++) {
        uint8_t tray[MOST];
        numbers[i] = draw() % limit + (call == WORD);
        charges[i] = draw() % (STRIP_MOST_CHARGE + 1);
        draw_word(words[i]);
        /* half of the windows looked up cross the welded joint of a section and the next */
        if (call == LOOK && i % 2 != 0) print_marks(k, n, (draw() % SECTIONS | 1) * room - 1 - draw() % (n - 1), n, words[i], n);
        for (int unread = 0; call == SMUDGED && unread < STRIP_MOST_UNREAD; unread++) words[i][draw() % n] = STRIP_UNREAD;
        /* a window of which the misreadings are asked is laid */
        while (call == MISREAD && look_up(plan, sizeof plan, words[i], n, tray, MOST) != 0) draw_word(words[i]);
    }
}

#define ASK(name, maker)                                                                                                                \
    case maker:                                                                                                                         \
        switch (call) {                                                                                                                 \
        case TURN: return name##turn_of(k, n, words[i], n, tray, MOST);                                                                 \
        case RANK: return name##rank_of(k, n, words[i], n, tray, MOST);                                                                 \
        case PLACE: return name##place_of(k, n, words[i], n, tray, MOST);                                                               \
        case SHORT_PLACE: return name##short_place_of(k, n, words[i], n, tray, MOST);                                                   \
        case WORD: return name##word_of(k, n, numbers[i], tray, MOST);                                                                  \
        case MARK: return name##mark_at(k, n, numbers[i], tray, MOST);                                                                  \
        case SHORT_MARK: return name##short_mark_at(k, n, numbers[i], tray, MOST);                                                      \
        case LOOK: return name##look_up(plan, sizeof plan, words[i], n, tray, MOST);                                                    \
        case SMUDGED: return name##look_up_smudged(plan, sizeof plan, words[i], n, tray, MOST);                                         \
        case MISREAD: return name##misreadings_of(plan, sizeof plan, words[i], n, tray, MOST, printed[maker], STRIP_MOST_LIST);         \
        case BILL: return name##bill_of(plan, sizeof plan, numbers[i], charges[i], tray, MOST);                                         \
        case PRINT: return name##print_marks(k, n, numbers[i], PRINTED, printed[maker], PRINTED);                                       \
        case SHORT_PRINT: return name##short_print_marks(k, n, numbers[i], PRINTED, printed[maker], PRINTED);                           \
        default: return name##picture_of(k, n, numbers[i], WIDTH, HEIGHT, tray, MOST, printed[maker], FILE_BYTES);                      \
        }

static uint8_t ask(int maker, int call, int i, uint8_t *tray) {
    switch (maker) {
        ASK(, LIBRARY)
        ASK(plain_, PLAIN)
        ASK(best_, BEST)
    }
    memcpy(printed[COPY], printed[LIBRARY], call == PICTURE ? FILE_BYTES : PRINTED);
    __asm__ volatile("" : : "r"(printed[COPY]) : "memory");
    return 0;
}

static int prints(int call) {
    return call == PRINT || call == SHORT_PRINT || call == PICTURE;
}

static void check(int call, int inputs) {
    for (int i = 0; i < inputs; i++) {
        uint8_t trays[3][MOST] = {{0}}, given[3];
        for (int maker = LIBRARY; maker <= BEST; maker++) given[maker] = ask(maker, call, i, trays[maker]);
        for (int maker = PLAIN; maker <= BEST; maker++)
            if (given[maker] != given[LIBRARY] || memcmp(trays[maker], trays[LIBRARY], MOST) != 0 ||
                ((prints(call) || call == MISREAD) && memcmp(printed[maker], printed[LIBRARY], FILE_BYTES) != 0)) {
                fprintf(stderr, "bench: %s on (%d, %d), input %d: answers differ\n", NAMES[call], (int)k, (int)n, i);
                exit(1);
            }
    }
}

static double now(void) {
    struct timespec t;
    clock_gettime(CLOCK_MONOTONIC, &t);
    return (double)t.tv_sec + 1e-9 * (double)t.tv_nsec;
}

/* seconds for one pass over the inputs, over enough passes to be measured */
static double pass(int maker, int call, int inputs) {
    uint8_t tray[MOST];
    double start = now(), end = start;
    int passes = 0;
    while (passes == 0 || end - start < 0.01) {
        for (int i = 0; i < inputs; i++) ask(maker, call, i, tray);
        passes++;
        end = now();
    }
    return (end - start) / passes;
}

static void measure(int call) {
    double least[MAKERS];
    int inputs = prints(call) ? 4 : INPUTS, makers = prints(call) ? MAKERS : COPY;
    lay_sections(call);
    draw_inputs(call);
    check(call, inputs);
    for (int round = 0; round < ROUNDS; round++)
        for (int maker = 0; maker < makers; maker++) {
            double time = pass(maker, call, inputs);
            if (round == 0 || time < least[maker]) least[maker] = time;
        }
    printf("%s %d %d %.4g %.4g ", NAMES[call], (int)k, (int)n, least[PLAIN] / least[LIBRARY], least[BEST] / least[LIBRARY]);
    if (prints(call)) printf("%.4g\n", least[COPY] / least[LIBRARY]);
    else printf("-\n");
    fflush(stdout);
}

int main(void) {
    for (int call = 0; call < CALLS; call++) {
        for (size_t s = 0; s < sizeof STRIPS / sizeof *STRIPS; s++) {
            k = STRIPS[s][0];
            n = STRIPS[s][1];
            if (call != PICTURE || k == 2) measure(call);
        }
    }
    return 0;
}
