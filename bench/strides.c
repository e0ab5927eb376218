/* What the program `strides` does, in C: a cursor of any bytes, tested before each step and handed back by value. */
#include <stdint.h>
#include <stdio.h>
#include <string.h>

enum { MOST = 60, STEPS = 1000000 };

struct cursor {
    uint8_t k, n, word[MOST], length, place;
};

struct stepped {
    uint8_t number, mark;
    uint64_t passed;
    struct cursor cursor;
};

static int admitted(uint64_t k, uint64_t n) {
    uint64_t places = 1;
    if (k < 2 || k > 36 || n < 1 || n > MOST) return 0;
    for (uint64_t i = 0; i < n; i++) {
        if (places > ((uint64_t)1 << 60) / k) return 0;
        places *= k;
    }
    return 1;
}

/* the length of the Lyndon word that the word extends, or 0 */
static size_t period_of(const uint8_t *word, size_t length) {
    size_t period = 1;
    for (size_t i = 1; i < length; i++) {
        if (word[i] < word[i - period]) return 0;
        if (word[i] > word[i - period]) period = i + 1;
    }
    return period;
}

static int good(const struct cursor *c) {
    if (c->length > MOST || c->place >= c->length || c->n % c->length != 0) return 0;
    for (size_t i = 0; i < c->length; i++)
        if (c->word[i] >= c->k) return 0;
    for (size_t i = c->length; i < MOST; i++)
        if (c->word[i] != 0) return 0;
    return period_of(c->word, c->length) == c->length;
}

/* the next Lyndon word of at most n letters, with zeros after it; its length, 0 after the last */
static size_t next(struct cursor *c, size_t length) {
    size_t i = c->n;
    for (size_t j = length; j < c->n; j++) c->word[j] = c->word[j - length];
    while (i > 0 && c->word[i - 1] == c->k - 1) c->word[--i] = 0;
    if (i > 0) c->word[i - 1]++;
    return i;
}

static struct stepped step(struct cursor c) {
    if (!admitted(c.k, c.n)) return (struct stepped){1, 0, 0, c};
    if (!good(&c)) return (struct stepped){10, 0, 0, c};
    struct stepped s = {0, c.word[c.place], 0, c};
    if (++s.cursor.place < c.length) return s;
    size_t length = c.length;
    do {
        length = next(&s.cursor, length);
        s.passed++;
    } while (length != 0 && c.n % length != 0);
    if (length == 0) s.passed = 0;
    s.cursor.length = length == 0 ? 1 : (uint8_t)length;
    s.cursor.place = 0;
    return s;
}

static void stride(uint8_t k, uint8_t n) {
    struct cursor at = {k, n, {0}, 1, 0};
    uint64_t sum = 0, mix = 0;
    for (int i = 0; i < STEPS; i++) {
        struct stepped s = step(at);
        at = s.cursor;
        sum += s.mark;
        mix ^= s.passed;
    }
    printf("%llu %llu\n", (unsigned long long)sum, (unsigned long long)mix);
}

int main(void) {
    stride(2, 60);
    stride(4, 30);
    stride(36, 11);
    return 0;
}
