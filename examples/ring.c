/* A host for a head that takes a repeating window for a blank rail: prints where windows stand on the short ring, which has no such window.

   Usage: ring K N MARKS..., the shades, the marks of a window and windows, e.g. ring 2 4 1100 0101. Build and run it with examples/run. */
#include "marks.h"

/* Prints a window's place; or why that is not told. One mark more than any strip has is enough to be refused. */
static void tell_place(uint64_t k, uint64_t n, const char *text)
{
    uint8_t window[STRIP_MOST_MARKS + 1], tray[STRIP_NUMBER];
    uint8_t refused = short_place_of(k, n, window, marks_of(text, window, sizeof window), tray, sizeof tray);
    if (refused != STRIP_FINE)
        tell_refusal(text, refused);
    else
        printf("%s: place %llu\n", text, (unsigned long long)number(tray, sizeof tray));
}

int main(int argc, char **argv)
{
    uint64_t k, n;
    if (argc < 3 || !is_number(argv[1], 0, UINT64_MAX, &k) || !is_number(argv[2], 0, UINT64_MAX, &n)) {
        fprintf(stderr, "usage: ring K N MARKS...\n");
        return 2;
    }
    for (int i = 3; i < argc; i++)
        tell_place(k, n, argv[i]);
    return 0;
}
