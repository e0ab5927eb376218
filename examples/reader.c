/* A reader's host: takes the marks that a trolley head read and prints where it stands, and by how many marks the window is turned.

   Usage: reader PLAN MARKS..., e.g. reader sample.plan 1011 '1?1?', where ? is a mark that the head could not read: told is the lowest place at which
   a laid window agrees. Build and run it on the sample plan with examples/run. */
#include "marks.h"

int main(int argc, char **argv)
{
    return tell_each("reader", argc, argv, look);
}
