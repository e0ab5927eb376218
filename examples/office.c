/* A host for the office: prints what the sections of a laying plan cost.

   Usage: office PLAN PRICE CHARGE, the price of a mark in thousandths of a cent and the charge for a section in cents, e.g. office sample.plan 250 100.
   Build and run it on the sample plan with examples/run. */
#include "marks.h"

int main(int argc, char **argv)
{
    uint8_t plan[PLAN_ROOM], tray[STRIP_NUMBER];
    size_t plan_len;
    uint64_t price, charge;
    if (argc != 4 || !is_number(argv[2], 0, UINT64_MAX, &price) || !is_number(argv[3], 0, UINT64_MAX, &charge) || !read_plan(argv[1], plan, &plan_len)) {
        fprintf(stderr, "usage: office PLAN PRICE CHARGE\n");
        return 2;
    }
    uint8_t refused = bill_of(plan, plan_len, price, charge, tray, sizeof tray);
    if (refused != STRIP_FINE) {
        printf("refused %u, %s\n", refused, strip_meaning(refused));
        return 1;
    }
    unsigned long long bill = number(tray, sizeof tray);
    printf("bill: %llu cents, %llu.%02llu\n", bill, bill / 100, bill % 100);
    return 0;
}
