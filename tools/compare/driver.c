// driver fits|solver|predict ANSWERED SEED: our answers against those of a file that the oracle answered.
// driver tampered SEED COUNT: resumes of records and memory that no fit left, as many starts, and predictions and solves of wrong sizes, against refusals written
// down here a second time.
// driver sheets SEED COUNT: training sheets of both versions, most of them damaged and a quarter with cancelled rows, against a second reader, mover and writer.
// driver scratch SEED COUNT: the words of scratch for sizes and settings in and out of range, against 01's formula.
// Numbers are handled as bits. Each slice ends at a page that faults; inputs are read-only while a call runs. Prints a line for each difference and one of counts.
#include <stdio.h>
#include <stdlib.h>
#include <string.h>

#include "calls.h"
#include "kinds.h"

int main(int count, char **given) {
    if (count != 4) fail("usage: driver fits|solver|predict ANSWERED SEED, or driver tampered|sheets|scratch SEED COUNT");
    what = given[1];
    watch();
    setvbuf(stdout, NULL, _IOLBF, 0);
    rooms();
    if (!strcmp(what, "tampered")) tampered(strtoull(given[2], NULL, 10), strtoull(given[3], NULL, 10));
    else if (!strcmp(what, "sheets")) sheets(strtoull(given[2], NULL, 10), strtoull(given[3], NULL, 10));
    else if (!strcmp(what, "scratch")) scratch(strtoull(given[2], NULL, 10), strtoull(given[3], NULL, 10));
    else answered(given[2], strtoull(given[3], NULL, 10));
    printf(" differ %zu\n", differences);
    return differences != 0;
}
