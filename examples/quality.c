/* A host for quality staff: prints where a window stands, and each misreading of one mark that would move it to another laid place.

   Usage: quality PLAN MARKS..., e.g. quality sample.plan 1011. Build and run it on the sample plan with examples/run. */
#include "marks.h"

/* Prints a mark, the shade that it may be read as, and where the window stands then. */
static void tell_entry(const uint8_t *plan, size_t plan_len, const uint8_t *window, size_t count, const uint8_t *entry)
{
    uint8_t misread[STRIP_MOST_MARKS], tray[STRIP_LAYING];
    memcpy(misread, window, count);
    misread[entry[0]] = entry[1];
    look_up(plan, plan_len, misread, count, tray, sizeof tray); /* never refused: the new window is laid */
    printf("  mark %u read as %c: place %llu, section %llu, distance %llu\n", entry[0], "0123456789abcdefghijklmnopqrstuvwxyz"[entry[1]],
           (unsigned long long)number(entry + 2, 8), (unsigned long long)number(tray, 2), (unsigned long long)number(tray + 2, 8));
}

/* Prints a window's line and one for each misreading; or why that is not told. */
static void tell_misreadings(const uint8_t *plan, size_t plan_len, const char *text)
{
    uint8_t window[STRIP_MOST_MARKS + 1], entries[STRIP_NUMBER], list[STRIP_MOST_LIST];
    size_t count = marks_of(text, window, sizeof window);
    uint8_t refused = misreadings_of(plan, plan_len, window, count, entries, sizeof entries, list, sizeof list);
    if (refused != STRIP_FINE) {
        tell_refusal(text, refused);
        return;
    }
    look(plan, plan_len, text);
    for (uint64_t i = 0; i < number(entries, sizeof entries); i++)
        tell_entry(plan, plan_len, window, count, list + STRIP_ENTRY * i);
}

int main(int argc, char **argv)
{
    return tell_each("quality", argc, argv, tell_misreadings);
}
