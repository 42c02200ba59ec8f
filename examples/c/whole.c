/* A feeder and its incomer: works out their settings and prints the card. */
#include <inttypes.h>
#include <stdio.h>

#include "surfpocket.h"

#define ROWS 2

/* row, feeds_from, kind, volts, work, selfstart, return, far, clear, near, factor, low, high, step, device, floor, ceiling, backed,
   rated primary, rated secondary: 0 in both, so that the relays are keyed in primary mA; law: definite; the near end's greatest current */
static const uint64_t list[ROWS * SURFPOCKET_SIZE_FIELDS] = {
    1, 2, 1, 35000, 180000, 1500, 935, 900000, 1000000, 1800000, 1300, 50000, 5000000, 1000, 1, 1900, 5000, 1, 0, 0,
    SURFPOCKET_LAW_DEFINITE, 1800000,
    2, 0, 1, 35000, 200000, 1500, 935, 1500000, 3300000, 5200000, 1300, 50000, 10000000, 10000, 1, 0, 3000, 0, 0, 0,
    SURFPOCKET_LAW_DEFINITE, 5200000,
};

int main(void)
{
    uint64_t card[ROWS * SURFPOCKET_SIZE_COLUMNS];
    SurfpocketAnswer answer = surfpocket_whole(list, ROWS * SURFPOCKET_SIZE_FIELDS, card, ROWS * SURFPOCKET_SIZE_COLUMNS);
    if (answer.number != SURFPOCKET_DONE) {
        printf("refused: %" PRIu64 ", row %" PRIu64 ", field %" PRIu64 "\n", answer.number, answer.place, answer.field);
        return 1;
    }
    puts("row,pickup,delay,cutoff,law,multiplier");
    for (size_t i = 0; i < ROWS; i++) {
        const uint64_t *set = card + i * SURFPOCKET_SIZE_COLUMNS;
        printf("%zu,%" PRIu64 ",%" PRIu64 ",%" PRIu64 ",%" PRIu64 ",%" PRIu64 "\n", i + 1, set[0], set[1], set[2], set[3], set[4]);
    }
    return 0;
}
