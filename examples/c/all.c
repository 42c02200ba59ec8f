/* Every function of surfpocket.h with every constant: what is done, and what is refused with which number and place. */
#include <inttypes.h>
#include <math.h>
#include <stdio.h>
#include <stdlib.h>
#include <string.h>

#include "surfpocket.h"

#define ROWS 2
#define NUMBERS (ROWS * SURFPOCKET_SIZE_FIELDS)
#define SETTINGS (ROWS * SURFPOCKET_SIZE_COLUMNS)

/* fields, from 0 as C counts them; surfpocket.h and the README count from 1 */
enum {
    ROW, FEEDS_FROM, KIND, VOLTS, WORK, SELFSTART, RETURN, FAR, CLEAR, NEAR, FACTOR, LOW, HIGH, STEP, DEVICE, FLOOR, CEILING, BACKED,
    RATED_PRIMARY, RATED_SECONDARY, LAW, NEAR_GREATEST
};

/* a feeder, and the incomer that feeds it; both are keyed in primary mA, so that they have no rated currents, and definite */
static const uint64_t plant[NUMBERS] = {
    1, 2, 1, 35000, 180000, 1500, 935, 900000, 1000000, 1800000, 1300, 50000, 5000000, 1000, 1, 1900, 5000, 1, 0, 0,
    SURFPOCKET_LAW_DEFINITE, 1800000,
    2, 0, 1, 35000, 200000, 1500, 935, 1500000, 3300000, 5200000, 1300, 50000, 10000000, 10000, 1, 0, 3000, 0, 0, 0,
    SURFPOCKET_LAW_DEFINITE, 5200000,
};

static const char text[] =
    "row,name,feeds_from,kind,volts,work,selfstart,return,far,clear,near,factor,low,high,step,device,floor,ceiling,backed,"
    "rated_primary,rated_secondary,law,near_greatest\r\n"
    "1,F1,2,1,35000,180000,1500,935,900000,1000000,1800000,1300,50000,5000000,1000,1,1900,5000,1,0,0,0,1800000\r\n"
    "2,IN,0,1,35000,200000,1500,935,1500000,3300000,5200000,1300,50000,10000000,10000,1,0,3000,0,0,0,0,5200000\r\n";

static const char *name_of(uint64_t number)
{
    switch (number) {
    case SURFPOCKET_DONE: return "DONE";
    case SURFPOCKET_REFUSED_TEXT: return "TEXT";
    case SURFPOCKET_REFUSED_COUNT: return "COUNT";
    case SURFPOCKET_REFUSED_ROOM: return "ROOM";
    case SURFPOCKET_REFUSED_FIELD: return "FIELD";
    case SURFPOCKET_REFUSED_TREE: return "TREE";
    case SURFPOCKET_REFUSED_DELAY: return "DELAY";
    case SURFPOCKET_REFUSED_STUDY: return "STUDY";
    case SURFPOCKET_REFUSED_CARD: return "CARD";
    case SURFPOCKET_REFUSED_EDIT: return "EDIT";
    case SURFPOCKET_REFUSED_RANGE: return "RANGE";
    case SURFPOCKET_REFUSED_OWN_ZONE: return "OWN ZONE";
    case SURFPOCKET_REFUSED_BACKUP: return "BACKUP";
    case SURFPOCKET_REFUSED_CURVE: return "CURVE";
    case SURFPOCKET_REFUSED_INPUT: return "INPUT";
    case SURFPOCKET_REFUSED_SLOPE: return "SLOPE";
    default: return "a number of a later version";
    }
}

/* what the third number is */
static const char *third_of(uint64_t number)
{
    return number == SURFPOCKET_REFUSED_BACKUP ? "fed row" : "field";
}

static void show(const char *what, SurfpocketAnswer answer)
{
    printf("  %-40s %s, place %" PRIu64 ", %s %" PRIu64 "\n", what, name_of(answer.number), answer.place, third_of(answer.number),
           answer.field);
}

/* the rows worked out, whose relays are to be visited: so many from the replaced one on, each time the row that feeds the last */
static void show_replacement(const char *what, SurfpocketReplacement given)
{
    printf("  %-40s %s, place %" PRIu64 ", %s %" PRIu64 ", rows worked out %" PRIu64 "\n", what, name_of(given.number),
           given.place, third_of(given.number), given.field, given.rows);
}

static const char *law_of(uint64_t law)
{
    switch (law) {
    case SURFPOCKET_LAW_DEFINITE: return "definite";
    case SURFPOCKET_LAW_B: return "B";
    case SURFPOCKET_LAW_C: return "C";
    default: return "none";
    }
}

static void show_card(const uint64_t *card)
{
    for (size_t i = 0; i < ROWS; i++) {
        const uint64_t *set = card + i * SURFPOCKET_SIZE_COLUMNS;
        printf("    row %zu: pickup %" PRIu64 " mA, ", i + 1, set[0]);
        if (set[3] == SURFPOCKET_LAW_DEFINITE) {
            printf("delay %" PRIu64 " ms, ", set[1]);
        } else {
            printf("curve %s, multiplier %" PRIu64 ".%03" PRIu64 ", ", law_of(set[3]), set[4] / 1000, set[4] % 1000);
        }
        printf("cutoff %" PRIu64 " mA\n", set[2]);
    }
}

/* the whole calculation of the plant with one field changed */
static void try_whole(const char *what, size_t row, size_t field, uint64_t value)
{
    uint64_t list[NUMBERS], card[SETTINGS];
    memcpy(list, plant, sizeof list);
    list[row * SURFPOCKET_SIZE_FIELDS + field] = value;
    show(what, surfpocket_whole(list, NUMBERS, card, SETTINGS));
}

/* the same with row 1 on curve B and another greatest current at its near end */
static void try_curve(const char *what, uint64_t near_greatest)
{
    uint64_t list[NUMBERS], card[SETTINGS];
    memcpy(list, plant, sizeof list);
    list[LAW] = SURFPOCKET_LAW_B;
    list[NEAR_GREATEST] = near_greatest;
    SurfpocketAnswer answer = surfpocket_whole(list, NUMBERS, card, SETTINGS);
    show(what, answer);
    if (answer.number == SURFPOCKET_DONE) {
        show_card(card);
    }
}

static void whole(void)
{
    static const uint64_t too_many[(SURFPOCKET_SIZE_ROWS + 1) * SURFPOCKET_SIZE_FIELDS];
    uint64_t card[SETTINGS];
    puts("the whole calculation");
    show("the plant", surfpocket_whole(plant, NUMBERS, card, SETTINGS));
    show_card(card);
    show("no row", surfpocket_whole(NULL, 0, card, SETTINGS));
    show("a partial row", surfpocket_whole(plant, NUMBERS - 1, card, SETTINGS));
    show("257 rows", surfpocket_whole(too_many, sizeof too_many / sizeof *too_many, card, SETTINGS));
    show("a card of 9 numbers", surfpocket_whole(plant, NUMBERS, card, SETTINGS - 1));
    try_whole("row 1: volts 99", 0, VOLTS, 99);
    try_whole("row 1: low above high", 0, LOW, 5000001);
    try_whole("row 1: a rated secondary alone", 0, RATED_SECONDARY, 5);
    try_whole("row 1: pickups secondary, to 5,000 A", 0, RATED_PRIMARY, 300);
    try_whole("row 1: law 3", 0, LAW, 3);
    try_whole("row 1: no current at its near end", 0, NEAR_GREATEST, 0);
    try_whole("row 1: fed by itself", 0, FEEDS_FROM, 1);
    try_whole("row 2: high 359,999 mA", 1, HIGH, 359999);
    try_whole("row 2: far 539,999 mA", 1, FAR, 539999);
    try_whole("row 2: low 760,000 mA", 1, LOW, 760000);
    try_whole("row 2: ceiling 2,199 ms", 1, CEILING, 2199);
    try_curve("row 1: curve B, M 2.000", 636000);
    try_curve("row 1: curve B, M 1.000", 318317);
}

/* the replacement of row 1 of the plant, one field changed, on the list and card lent */
static SurfpocketReplacement put_row_1(uint64_t *list, uint64_t *card, size_t field, uint64_t value)
{
    /* a copy: a row that points into the list would overlap it */
    uint64_t row[SURFPOCKET_SIZE_FIELDS];
    memcpy(row, list, sizeof row);
    row[field] = value;
    return surfpocket_replace(list, NUMBERS, card, SETTINGS, 1, row, SURFPOCKET_SIZE_FIELDS);
}

/* the same with its relay keyed in secondary mA, 500 to 80,000 in steps of 10, behind a transformer of 300/5 A */
static SurfpocketReplacement key_row_1(uint64_t *list, uint64_t *card)
{
    uint64_t row[SURFPOCKET_SIZE_FIELDS];
    memcpy(row, list, sizeof row);
    row[LOW] = 500;
    row[HIGH] = 80000;
    row[STEP] = 10;
    row[RATED_PRIMARY] = 300;
    row[RATED_SECONDARY] = 5;
    return surfpocket_replace(list, NUMBERS, card, SETTINGS, 1, row, SURFPOCKET_SIZE_FIELDS);
}

static void replace(void)
{
    uint64_t list[NUMBERS], card[SETTINGS], old_list[NUMBERS], old_card[SETTINGS];
    memcpy(list, plant, sizeof list);
    surfpocket_whole(list, NUMBERS, card, SETTINGS);
    puts("the replacement of row 1");
    show_replacement("work 190,000 mA", put_row_1(list, card, WORK, 190000));
    show_card(card);
    show_replacement("an electromechanical relay", put_row_1(list, card, DEVICE, 2));
    show_card(card);
    show_replacement("row 2 in place of itself",
                     surfpocket_replace(list, NUMBERS, card, SETTINGS, 2, plant + SURFPOCKET_SIZE_FIELDS, SURFPOCKET_SIZE_FIELDS));
    show_replacement("keyed in secondary mA behind 300/5 A", key_row_1(list, card));
    show_card(card);
    show_replacement("curve C", put_row_1(list, card, LAW, SURFPOCKET_LAW_C));
    show_card(card);
    show_replacement("the near end at 900,000 mA", put_row_1(list, card, NEAR_GREATEST, 900000));
    show_card(card);
    show_replacement("the near end at 335,000 mA", put_row_1(list, card, NEAR_GREATEST, 335000));
    show_replacement("definite again", put_row_1(list, card, LAW, SURFPOCKET_LAW_DEFINITE));
    memcpy(old_list, list, sizeof list);
    memcpy(old_card, card, sizeof card);
    show_replacement("work 5,000,000 mA", put_row_1(list, card, WORK, 5000000));
    show_replacement("far 431,000 mA", put_row_1(list, card, FAR, 431000));
    show_replacement("floor 2,501 ms", put_row_1(list, card, FLOOR, 2501));
    show_replacement("volts 99", put_row_1(list, card, VOLTS, 99));
    show_replacement("another feeder", put_row_1(list, card, FEEDS_FROM, 0));
    show_replacement("another number", put_row_1(list, card, ROW, 2));
    show_replacement("a place that no row has",
                     surfpocket_replace(list, NUMBERS, card, SETTINGS, 3, plant, SURFPOCKET_SIZE_FIELDS));
    show_replacement("a new row of 21 numbers",
                     surfpocket_replace(list, NUMBERS, card, SETTINGS, 1, plant, SURFPOCKET_SIZE_FIELDS - 1));
    show_replacement("a list with a partial row",
                     surfpocket_replace(list, NUMBERS - 1, card, SETTINGS, 1, plant, SURFPOCKET_SIZE_FIELDS));
    show_replacement("no card", surfpocket_replace(list, NUMBERS, NULL, 0, 1, plant, SURFPOCKET_SIZE_FIELDS));
    printf("    list and card stand as they stood: %s\n",
           memcmp(list, old_list, sizeof list) == 0 && memcmp(card, old_card, sizeof card) == 0 ? "yes" : "no");
    card[SURFPOCKET_SIZE_COLUMNS] = 0;
    show_replacement("a card with pickup 0 in row 2", put_row_1(list, card, WORK, 190000));
    card[SURFPOCKET_SIZE_COLUMNS] = 370000;
    card[SURFPOCKET_SIZE_COLUMNS + 3] = 3;
    show_replacement("a card with law 3 in row 2", put_row_1(list, card, WORK, 190000));
    card[SURFPOCKET_SIZE_COLUMNS + 3] = SURFPOCKET_LAW_DEFINITE;
    card[SURFPOCKET_SIZE_COLUMNS + 4] = 1501;
    show_replacement("a card with multiplier 1.501 in row 2", put_row_1(list, card, WORK, 190000));
    list[SURFPOCKET_SIZE_FIELDS + KIND] = 3;
    show_replacement("a list whose row 2 is a motor", put_row_1(list, card, WORK, 190000));
}

/* what lies on both sides of a reading: the same number, if it is a whole number of mA */
static void show_sides(const char *reading, uint64_t lower, uint64_t upper)
{
    if (lower == upper) {
        printf("    the %s is %" PRIu64 " mA exactly\n", reading, lower);
    } else {
        printf("    the %s, as a single, lies between %" PRIu64 " and %" PRIu64 " mA\n", reading, lower, upper);
    }
}

static void show_study(const char *what, SurfpocketStudy study)
{
    printf("  %-40s %s, place %" PRIu64 ", greatest %" PRIu64 " mA, least %" PRIu64 " mA\n", what, name_of(study.number),
           study.place, study.greatest, study.least);
    if (study.number == SURFPOCKET_DONE) {
        show_sides("greatest", study.greatest_lower, study.greatest_upper);
        show_sides("least", study.least_lower, study.least_upper);
    }
}

static void study(void)
{
    puts("a study's currents");
    show_study("0.5 A and 0.5 A", surfpocket_study(SURFPOCKET_UNIT_AMPERES, 0.5f, 0, SURFPOCKET_UNIT_AMPERES, 0.5f, 0));
    show_study("0.1 kA and 0.1 kA",
               surfpocket_study(SURFPOCKET_UNIT_KILOAMPERES, 0.1f, 0, SURFPOCKET_UNIT_KILOAMPERES, 0.1f, 0));
    show_study("4.5 per unit of 630 A, and 1.2 kA",
               surfpocket_study(SURFPOCKET_UNIT_PER_UNIT, 4.5f, 630000, SURFPOCKET_UNIT_KILOAMPERES, 1.2f, 0));
    show_study("the smallest positive single, and 0.5 A",
               surfpocket_study(SURFPOCKET_UNIT_AMPERES, 0x1p-149f, 0, SURFPOCKET_UNIT_AMPERES, 0.5f, 0));
    show_study("0.5 A, and 1.5 per unit of 66,666,667 mA",
               surfpocket_study(SURFPOCKET_UNIT_AMPERES, 0.5f, 0, SURFPOCKET_UNIT_PER_UNIT, 1.5f, 66666667));
    show_study("per unit of 0 mA", surfpocket_study(SURFPOCKET_UNIT_PER_UNIT, 4.5f, 0, SURFPOCKET_UNIT_AMPERES, 0.5f, 0));
    show_study("a unit that is none of the three", surfpocket_study(4, 0.5f, 0, SURFPOCKET_UNIT_AMPERES, 0.5f, 0));
    show_study("not a number", surfpocket_study(SURFPOCKET_UNIT_AMPERES, NAN, 0, SURFPOCKET_UNIT_AMPERES, 0.5f, 0));
    show_study("a negative least current", surfpocket_study(SURFPOCKET_UNIT_AMPERES, 0.5f, 0, SURFPOCKET_UNIT_AMPERES, -0.5f, 0));
}

static const char *verdict_of(uint64_t verdict)
{
    switch (verdict) {
    case SURFPOCKET_VERDICT_TRIP: return "trip";
    case SURFPOCKET_VERDICT_HOLD: return "hold";
    case SURFPOCKET_VERDICT_BLOCKED: return "blocked";
    default: return "none";
    }
}

static void show_differential(const char *what, SurfpocketDifferential card)
{
    printf("  %-40s %s, place %" PRIu64 ", start %" PRIu64 ", bend %" PRIu64 ", slope %" PRIu64 ", blocking %" PRIu64 ", cutoff %" PRIu64
           ", %s\n",
           what, name_of(card.number), card.place, card.start, card.bend, card.slope, card.blocking, card.cutoff,
           verdict_of(card.verdict));
}

/* hundredths: start 0.30, blocking 2.00 and cutoff 7.00, the greatest outside fault current 4.00; then what was measured */
static void differential(void)
{
    puts("the differential card, and the verdict on a measured pair");
    show_differential("normal load", surfpocket_differential(30, 200, 700, 400, 100, 98, 5, 99));
    show_differential("at the characteristic, 1.80", surfpocket_differential(30, 200, 700, 400, 120, 150, 180, 400));
    show_differential("a hundredth below it", surfpocket_differential(30, 200, 700, 400, 120, 150, 179, 400));
    show_differential("both sides at blocking", surfpocket_differential(30, 200, 700, 400, 200, 200, 699, 200));
    show_differential("the same, differential at the cutoff", surfpocket_differential(30, 200, 700, 400, 200, 200, 700, 200));
    show_differential("start 0.19", surfpocket_differential(19, 200, 700, 400, 100, 98, 5, 99));
    show_differential("blocking 3.01 and restraint 100.01", surfpocket_differential(30, 301, 700, 400, 100, 98, 5, 10001));
    show_differential("an outside fault of 1.00", surfpocket_differential(30, 200, 700, 100, 100, 98, 5, 99));
}

/* M and multiplier in thousandths */
static void show_time(const char *what, uint64_t law, uint64_t multiple, uint64_t multiplier)
{
    printf("  %-40s %" PRIu64 " ms\n", what, surfpocket_time(law, multiple, multiplier));
}

static void times(void)
{
    puts("the time of a curve");
    show_time("B at M 2.000, multiplier 1.000", SURFPOCKET_LAW_B, 2000, 1000);
    show_time("C at M 10.000, multiplier 1.000", SURFPOCKET_LAW_C, 10000, 1000);
    show_time("C at M 20.000, multiplier 0.010", SURFPOCKET_LAW_C, 20000, 10);
    show_time("a definite row has none", SURFPOCKET_LAW_DEFINITE, 2000, 1000);
    show_time("nor has M 1.000", SURFPOCKET_LAW_B, 1000, 1000);
    show_time("nor a multiplier of 1.501", SURFPOCKET_LAW_B, 2000, 1501);
}

/* the printed card or refusal of a text, without the CRs of its line ends */
static void print(const char *what, const void *bytes, size_t length, size_t room)
{
    static uint8_t out[SURFPOCKET_SIZE_PRINTED];
    SurfpocketPrinted printed = surfpocket_card(bytes, length, out, room);
    printf("  %-40s %s, place %" PRIu64 ", %s %" PRIu64 ", %" PRIu64 " bytes\n", what, name_of(printed.number), printed.place,
           third_of(printed.number), printed.field, printed.bytes);
    for (size_t i = 0; i < printed.bytes; i++) {
        if (out[i] != '\r') {
            printf("%s%c", i == 0 || out[i - 1] == '\n' ? "    " : "", out[i]);
        }
    }
}

static void card(void)
{
    static const uint8_t too_long[SURFPOCKET_SIZE_TEXT + 1];
    size_t length = sizeof text - 1;
    puts("from text to card");
    print("the plant", text, length, SURFPOCKET_SIZE_PRINTED);
    print("a buffer of 60 bytes", text, length, 60);
    size_t cut = length - strlen("5200000\r\n");
    print("the last number cut off", text, cut, SURFPOCKET_SIZE_PRINTED);
    print("the same, a buffer of 20 bytes", text, cut, 20);
    print("65,537 bytes", too_long, sizeof too_long, SURFPOCKET_SIZE_PRINTED);
    print("no byte, no buffer", NULL, 0, 0);
}

int main(void)
{
    if (surfpocket_version() != SURFPOCKET_VERSION) {
        fputs("the library is of another version than the header\n", stderr);
        return EXIT_FAILURE;
    }
    whole();
    replace();
    study();
    differential();
    times();
    card();
    return EXIT_SUCCESS;
}
