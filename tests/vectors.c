/* Reads calls with expected results, as vectors.py prints them, and compares the library: the number given back, the answer, and every
   byte that must stay, with trays one byte short, exact and longer. A picture's size and a list's number of entries go into a tray of their own,
   which is lent one byte short, exact and longer. Exits 1 if anything differs, or a call is never compared. */
#include "../include/strip.h"
#include "lent.h"

enum { TURN, RANK, WORD, MARK, PLACE, PRINT, SHORT_MARK, SHORT_PLACE, SHORT_PRINT, PICTURE, LOOK, SMUDGED, MISREAD, BILL, CALLS };
enum { MOST_BYTES = 1 << 14, MOST_ANSWER = 1 << 22, MOST_TRAY = 64 };
static const char *const NAMES[CALLS] = {"turn",        "rank",    "word", "mark",    "place",   "print", "short_mark", "short_place",
                                         "short_print", "picture", "look", "smudged", "misread", "bill"};

struct vector {
    int call;
    uint64_t k, n, number, marks, height; /* the marks of a picture are its width */
    uint64_t price, charge;
    size_t input_length, plan_length, answer_length;
    uint8_t input[MOST_BYTES], plan[MOST_BYTES], answer[MOST_ANSWER];
    unsigned refusal;
};

/* Numbers that the model takes for granted are those of the header. */
_Static_assert(STRIP_FINE == 0 && STRIP_TRAY_TOO_SMALL == 6, "the refusal of a tray");
_Static_assert(STRIP_MOST_PLAN < MOST_BYTES && STRIP_MOST_MARKS < MOST_TRAY && STRIP_LAYING < MOST_TRAY && STRIP_MOST_PICTURE < MOST_ANSWER &&
                   STRIP_MOST_LIST < MOST_ANSWER,
               "room for plans and answers");

static struct room input_room, plan_room, tray_room, count_room;
static unsigned long compared[CALLS], failures;
static struct vector v;

static void bad_line(const char *why) {
    fprintf(stderr, "vectors: %s\n", why);
    exit(2);
}

static const char *field(void) {
    const char *text = strtok(NULL, " \n");
    if (text == NULL) bad_line("a field is missing");
    return text;
}

static uint64_t number_field(void) {
    return strtoull(field(), NULL, 10);
}

static unsigned digit(char c) {
    if (c >= '0' && c <= '9') return (unsigned)(c - '0');
    if (c < 'a' || c > 'f') bad_line("no hexadecimal digit");
    return (unsigned)(c - 'a' + 10);
}

static size_t bytes_field(uint8_t *into, size_t room) {
    const char *text = field();
    size_t length = strcmp(text, "-") == 0 ? 0 : strlen(text) / 2;
    if (length > room) bad_line("too many bytes");
    for (size_t i = 0; i < length; i++) into[i] = (uint8_t)(digit(text[2 * i]) << 4 | digit(text[2 * i + 1]));
    return length;
}

/* of a picture: two lines, and in each row a byte for each mark and for each line of 70 */
static uint64_t picture_bytes(void) {
    char head[64];
    int length = snprintf(head, sizeof head, "P1\n%llu %llu\n", (unsigned long long)v.marks, (unsigned long long)v.height);
    uint64_t bytes = (uint64_t)length + v.height * (v.marks + (v.marks + 69) / 70), room = STRIP_PICTURE(v.marks, v.height);
    if (room < bytes || room - bytes > 5) bad_line("a picture has not the room that the header says");
    return bytes;
}

/* the bytes of an answer, as the header states them */
static uint64_t answer_bytes(void) {
    switch (v.call) {
    case WORD: return v.n;
    case PRINT:
    case SHORT_PRINT: return v.marks;
    case PICTURE: return picture_bytes();
    case LOOK:
    case SMUDGED: return STRIP_LAYING;
    }
    return STRIP_NUMBER;
}

/* whether an answer may have so many bytes: of a list, whole entries, and no more than the most; of a refusal, none */
static int may_be_so_long(uint64_t length) {
    if (v.refusal != STRIP_FINE) return length == 0;
    return v.call == MISREAD ? length % STRIP_ENTRY == 0 && length <= STRIP_MOST_LIST : length == answer_bytes();
}

static int takes_a_word(void) {
    return v.call == TURN || v.call == RANK || v.call == PLACE || v.call == SHORT_PLACE;
}

static void parse(char *line) {
    const char *name = strtok(line, " \n");
    v.call = 0;
    while (v.call < CALLS && strcmp(name, NAMES[v.call]) != 0) v.call++;
    if (v.call == CALLS) bad_line("no such call");
    v.input_length = v.plan_length = 0;
    int of_window = v.call == LOOK || v.call == SMUDGED || v.call == MISREAD;
    if (of_window || v.call == BILL) {
        v.plan_length = bytes_field(v.plan, MOST_BYTES);
    } else {
        v.k = number_field();
        v.n = number_field();
    }
    if (v.call == BILL) v.price = number_field(), v.charge = number_field();
    else if (of_window || takes_a_word()) v.input_length = bytes_field(v.input, MOST_BYTES);
    else v.number = number_field();
    if (v.call == PRINT || v.call == SHORT_PRINT || v.call == PICTURE) v.marks = number_field();
    if (v.call == PICTURE) v.height = number_field();
    v.refusal = (unsigned)number_field();
    v.answer_length = bytes_field(v.answer, MOST_ANSWER);
    if (!may_be_so_long(v.answer_length)) bad_line("an answer is not as long as the header says");
}

static unsigned call(const struct lent *input, const struct lent *plan, const struct lent *count, const struct lent *tray) {
    switch (v.call) {
    case TURN: return turn_of(v.k, v.n, input->bytes, input->length, tray->bytes, tray->length);
    case RANK: return rank_of(v.k, v.n, input->bytes, input->length, tray->bytes, tray->length);
    case WORD: return word_of(v.k, v.n, v.number, tray->bytes, tray->length);
    case MARK: return mark_at(v.k, v.n, v.number, tray->bytes, tray->length);
    case PLACE: return place_of(v.k, v.n, input->bytes, input->length, tray->bytes, tray->length);
    case PRINT: return print_marks(v.k, v.n, v.number, v.marks, tray->bytes, tray->length);
    case SHORT_MARK: return short_mark_at(v.k, v.n, v.number, tray->bytes, tray->length);
    case SHORT_PLACE: return short_place_of(v.k, v.n, input->bytes, input->length, tray->bytes, tray->length);
    case SHORT_PRINT: return short_print_marks(v.k, v.n, v.number, v.marks, tray->bytes, tray->length);
    case PICTURE: return picture_of(v.k, v.n, v.number, v.marks, v.height, count->bytes, count->length, tray->bytes, tray->length);
    case LOOK: return look_up(plan->bytes, plan->length, input->bytes, input->length, tray->bytes, tray->length);
    case SMUDGED: return look_up_smudged(plan->bytes, plan->length, input->bytes, input->length, tray->bytes, tray->length);
    case MISREAD:
        return misreadings_of(plan->bytes, plan->length, input->bytes, input->length, count->bytes, count->length, tray->bytes, tray->length);
    case BILL: return bill_of(plan->bytes, plan->length, v.price, v.charge, tray->bytes, tray->length);
    }
    exit(2);
}

static int has_count(void) {
    return v.call == PICTURE || v.call == MISREAD;
}

/* whether the tray for a picture's size or a list's number of entries holds it, if there is one, and no other byte is touched */
static int holds_count(const struct lent *tray, unsigned refusal) {
    uint8_t number[STRIP_NUMBER];
    uint64_t count = v.call == MISREAD ? v.answer_length / STRIP_ENTRY : v.answer_length;
    for (int i = 0; i < STRIP_NUMBER; i++) number[i] = (uint8_t)(count >> 8 * (STRIP_NUMBER - 1 - i));
    return holds(tray, number, has_count() && refusal == 0 ? STRIP_NUMBER : 0);
}

static void compare_counted(size_t tray_length, size_t count_length, unsigned long line) {
    int kind = (int)((compared[v.call] + line) % KINDS);
    struct lent input = lend_copy(input_room, v.input, v.input_length, kind);
    struct lent plan = lend_copy(plan_room, v.plan, v.plan_length, kind);
    struct lent tray = lend(tray_room, tray_length, kind);
    struct lent count = lend(count_room, count_length, kind);
    int small = tray_length < v.answer_length || count_length < STRIP_NUMBER;
    unsigned refusal = v.refusal == 0 && small ? STRIP_TRAY_TOO_SMALL : v.refusal;
    unsigned given = call(&input, &plan, &count, &tray);
    int right = given == refusal && holds(&tray, v.answer, refusal == 0 ? v.answer_length : 0) && holds(&input, v.input, v.input_length) &&
                holds(&plan, v.plan, v.plan_length) && holds_count(&count, refusal);
    if (!right && failures++ < 20)
        printf("line %lu (%s), tray of %zu, for a count %zu: number %u, expected %u%s\n", line, NAMES[v.call], tray_length, count_length, given, refusal,
               given == refusal ? ", but other bytes" : "");
    compared[v.call]++;
    give_back(&input);
    give_back(&plan);
    give_back(&tray);
    give_back(&count);
}

static void compare(size_t tray_length, unsigned long line) {
    compare_counted(tray_length, STRIP_NUMBER, line);
}

/* refused ones with trays of any length, so that 6 comes after all others */
static void compare_all(unsigned long line) {
    static const size_t lengths[] = {0, STRIP_NUMBER - 1, MOST_TRAY};
    if (v.refusal != 0) {
        for (size_t i = 0; i < 3; i++) compare_counted(lengths[i], lengths[(i + line) % 3], line);
        return;
    }
    if (v.answer_length != 0) compare(v.answer_length - 1, line);
    compare(v.answer_length, line);
    if (v.call == LOOK || v.call == SMUDGED) {
        compare(v.answer_length - 2, line); /* as long as an answer without a rail */
        compare(v.answer_length - 3, line);
        compare(v.answer_length + 1, line);
    }
    if (v.call == BILL) {
        compare(0, line);
        compare(v.answer_length + 1, line);
        compare(STRIP_LAYING, line); /* as long as a lookup's answer */
    }
    if (v.call == SHORT_MARK || v.call == SHORT_PLACE) compare(line % STRIP_NUMBER, line); /* each length that is too short, in turn */
    compare(v.answer_length + 3, line);
    if (v.call == MISREAD && v.answer_length != 0) compare(v.answer_length - STRIP_ENTRY, line); /* as long as the list without an entry */
    if (!has_count()) return;
    compare_counted(v.answer_length, STRIP_NUMBER - 1, line);
    compare_counted(v.answer_length, STRIP_NUMBER + 5, line);
    if (v.answer_length != 0) compare_counted(v.answer_length - 1, 0, line);
}

int main(void) {
    char *line = NULL;
    size_t room = 0;
    unsigned long lines = 0;
    input_room = make_room(MOST_BYTES);
    plan_room = make_room(MOST_BYTES);
    tray_room = make_room(MOST_ANSWER + 3);
    count_room = make_room(MOST_TRAY);
    while (getline(&line, &room, stdin) > 0) {
        lines++;
        parse(line);
        compare_all(lines);
    }
    free(line);
    unsigned long total = 0, idle = 0;
    for (int i = 0; i < CALLS; i++) {
        total += compared[i];
        idle += compared[i] == 0;
    }
    printf("%lu vectors compared in %lu calls;", lines, total);
    for (int i = 0; i < CALLS; i++) printf(" %s %lu,", NAMES[i], compared[i]);
    printf(" %lu calls differ\n", failures);
    if (idle != 0) printf("a call is never compared\n");
    return failures != 0 || idle != 0;
}
