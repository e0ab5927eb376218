/* A planner's host: asks for a strip and its sections, writes their laying plan to a file, and looks windows up in it.

   Usage: planner FILE. Answers are typed or come from a pipe, one a line. What is no number is asked for again, and a plan that the
   library refuses is not written. Build and run it with examples/run. */
#include "marks.h"
#include <stdlib.h>

/* Room for a line: a longer one is cut, and what is left is still too long for a number or a window. */
enum { LINE = 80 };

/* The next line without its end; 0 if there is none. */
static int read_line(char *line)
{
    int c, length = 0;
    while ((c = getchar()) != EOF && c != '\n')
        if (length < LINE - 1)
            line[length++] = c == '\0' ? '?' : (char)c; /* a zero byte would hide what follows it */
    line[length] = '\0';
    return c != EOF || length > 0;
}

/* Asks until a number is typed. */
static uint64_t ask(const char *what, uint64_t least, uint64_t most)
{
    char line[LINE];
    uint64_t value;
    for (;;) {
        printf("%s?\n", what);
        if (!read_line(line)) {
            fprintf(stderr, "planner: the answers end too early\n");
            exit(1);
        }
        if (strlen(line) < LINE - 1 && is_number(line, least, most, &value))
            return value;
        printf("not a number from %llu to %llu\n", (unsigned long long)least, (unsigned long long)most);
    }
}

/* A number as bytes of a plan, the highest first. */
static void put(uint8_t *at, uint64_t value, int count)
{
    for (int i = count; i-- > 0; value >>= 8)
        at[i] = (uint8_t)value;
}

/* Asks for a plan and gives its length. The limits of each number are kept here; the rules of plans are left to the library. */
static size_t ask_plan(uint8_t *plan)
{
    put(plan, ask("shades k", 2, STRIP_MOST_SHADES), 1);
    put(plan + 1, ask("marks in a window n", 1, STRIP_MOST_MARKS), 1);
    size_t sections = (size_t)ask("sections", 0, STRIP_MOST_SECTIONS);
    int with_rails = ask("with rails, 1 for yes and 0 for no", 0, 1) == 1;
    size_t entry = with_rails ? 18 : 16;
    put(plan + 2, sections, 2);
    for (size_t i = 0; i < sections; i++) {
        uint8_t *at = plan + 4 + entry * i;
        printf("section %zu: ", i);
        put(at, ask("offset", 0, STRIP_MOST_PLACES), 8);
        put(at + 8, ask("length", 0, STRIP_MOST_PLACES), 8);
        if (with_rails)
            put(at + 16, ask("rail", 0, 65535), 2);
    }
    return 4 + entry * sections;
}

/* A plan's fault, or 0. No strip has windows of no marks, and the faults of a plan come before that refusal. */
static unsigned plan_fault(const uint8_t *plan, size_t plan_len)
{
    unsigned refused = look_up(plan, plan_len, NULL, 0, NULL, 0);
    return refused == STRIP_WRONG_WINDOW ? STRIP_FINE : refused;
}

static int write_plan(const char *name, const uint8_t *plan, size_t plan_len)
{
    FILE *file = fopen(name, "wb");
    int written = file != NULL && fwrite(plan, 1, plan_len, file) == plan_len;
    if (file != NULL && fclose(file) != 0)
        written = 0;
    if (!written)
        perror(name);
    return written;
}

int main(int argc, char **argv)
{
    uint8_t plan[STRIP_MOST_PLAN];
    char line[LINE];
    if (argc != 2) {
        fprintf(stderr, "usage: planner FILE\n");
        return 2;
    }
    size_t plan_len = ask_plan(plan);
    unsigned refused = plan_fault(plan, plan_len);
    if (refused != STRIP_FINE) {
        printf("refused %u, %s\n", refused, strip_meaning(refused));
        return 1;
    }
    if (!write_plan(argv[1], plan, plan_len))
        return 2;
    while (printf("window, or an empty line to end?\n"), read_line(line) && line[0] != '\0')
        look(plan, plan_len, line);
    return 0;
}
