/* What the example hosts share: numbers in a tray and as they are typed, marks as they are written, a plan's file, a window looked up in a plan, and the
   windows of a command line. Inline, as no host has a use for all of it. */
#ifndef MARKS_H
#define MARKS_H
#include "strip.h"
#include <stdio.h>
#include <string.h>

/* A number in a tray, the highest byte first. */
static inline uint64_t number(const uint8_t *bytes, size_t count)
{
    uint64_t value = 0;
    for (size_t i = 0; i < count; i++)
        value = value << 8 | bytes[i];
    return value;
}

/* Whether a text is a number from least to most, in digits alone. */
static inline int is_number(const char *text, uint64_t least, uint64_t most, uint64_t *value)
{
    size_t length = strlen(text);
    *value = 0;
    for (size_t i = 0; i < length; i++) {
        uint64_t digit = (uint64_t)(text[i] - '0');
        if (digit > 9 || digit > most || *value > (most - digit) / 10)
            return 0;
        *value = *value * 10 + digit;
    }
    return length > 0 && *value >= least;
}

/* Marks as they are written, 0 to 9 then a to z, and ? for one that was not read; any other character becomes a mark that every strip refuses. */
static inline size_t marks_of(const char *text, uint8_t *marks, size_t room)
{
    size_t count = 0;
    for (; count < room && text[count] != '\0'; count++) {
        char c = text[count];
        marks[count] = (uint8_t)(c >= '0' && c <= '9' ? c - '0' : c >= 'a' && c <= 'z' ? c - 'a' + 10 : c == '?' ? STRIP_UNREAD : STRIP_MOST_SHADES);
    }
    return count;
}

static inline void tell_refusal(const char *text, uint8_t refused)
{
    printf("%s: refused %u, %s\n", text, refused, strip_meaning(refused));
}

/* Prints by how many marks a window of a plan's strip is turned to its smallest rotation, if all its marks were read. */
static inline void tell_turn(const uint8_t *plan, const uint8_t *window, size_t count)
{
    uint8_t tray[STRIP_NUMBER];
    if (turn_of(plan[0], plan[1], window, count, tray, sizeof tray) == STRIP_FINE)
        printf(", turn %llu", (unsigned long long)number(tray, sizeof tray));
}

/* Prints where a window stands in a plan or, with marks not read, the one of the lowest place that agrees with it, and its turn; or why that is not
   told. One mark more than any strip has is enough to be refused. */
static inline void look(const uint8_t *plan, size_t plan_len, const char *text)
{
    uint8_t window[STRIP_MOST_MARKS + 1], tray[STRIP_LAYING];
    size_t count = marks_of(text, window, sizeof window);
    uint8_t refused = look_up_smudged(plan, plan_len, window, count, tray, sizeof tray);
    if (refused != STRIP_FINE) {
        tell_refusal(text, refused);
        return;
    }
    printf("%s: section %llu, distance %llu, rail %llu", text, (unsigned long long)number(tray, 2), (unsigned long long)number(tray + 2, 8),
           (unsigned long long)number(tray + 10, 2));
    tell_turn(plan, window, count);
    printf("\n");
}

/* Room for a plan from a file: one byte more, so that a longer file is a torn plan. */
enum { PLAN_ROOM = STRIP_MOST_PLAN + 1 };

/* Reads a plan's file; 0 if there is none. */
static inline int read_plan(const char *name, uint8_t plan[PLAN_ROOM], size_t *plan_len)
{
    FILE *file = fopen(name, "rb");
    if (file == NULL)
        return 0;
    *plan_len = fread(plan, 1, PLAN_ROOM, file);
    fclose(file);
    return 1;
}

/* Tells of each window of a command line, behind the name of a plan file; what the program is to return. */
static inline int tell_each(const char *host, int argc, char **argv, void (*tell)(const uint8_t *plan, size_t plan_len, const char *text))
{
    uint8_t plan[PLAN_ROOM];
    size_t plan_len;
    if (argc < 2 || !read_plan(argv[1], plan, &plan_len)) {
        fprintf(stderr, "usage: %s PLAN MARKS...\n", host);
        return 2;
    }
    for (int i = 2; i < argc; i++)
        tell(plan, plan_len, argv[i]);
    return 0;
}
#endif
