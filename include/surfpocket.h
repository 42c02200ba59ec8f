/* Surfpocket: settings cards of overcurrent relays and of transformer differential relays, worked out by proved code.

   `rt lib` in crates/surfpocket makes crates/surfpocket/out/libsurfpocket.a to link.

   What is assumed of a caller:
   - A pointer is good for the length that follows it, counted in numbers of 64 bits (aligned for them) or, for a text, in bytes.
     NULL with length 0 is allowed everywhere and counts as an empty buffer.
   - Lent buffers do not overlap: neither list and card, nor text and out, nor the new row of a replacement and list or card. A row
     that points into the list is overlap: copy it out first.
   - Nobody else reads or writes a lent buffer during the call. A buffer without const must be writable: a replacement that is
     refused may write list and card and put both back.
   - The caller was compiled with the header of the library that it is linked with: see SURFPOCKET_VERSION.
   - There is stack enough. Measured on x86-64 with 256 rows, and rounded up:
         surfpocket_whole      24 KiB
         surfpocket_replace   100 KiB for the first row of a chain; 320 bytes less for each row that is not worked out
         surfpocket_study       1 KiB
         surfpocket_differential 1 KiB
         surfpocket_time        1 KiB
         surfpocket_card      120 KiB
     A thread made for such a call needs what the thread itself takes besides.

   The functions keep nothing between calls, take no lock and use no heap, so threads may call them at once. Every input that meets
   these assumptions gets an answer. A refusal leaves list and card as they were lent. */
#ifndef SURFPOCKET_H
#define SURFPOCKET_H

#include <stddef.h>
#include <stdint.h>

#ifdef __cplusplus
extern "C" {
#endif

/* Grows with every change of a number or a struct of this header. A caller built with another header than the library's would be
   misread in silence, or its struct written past its end: where that can happen, as with a shared object, compare the two first,
   and stop if they differ. */
#define SURFPOCKET_VERSION 7
uint64_t surfpocket_version(void);

/* Sizes. The first two grow in later versions, so use their names.
   A row of a list is SURFPOCKET_SIZE_FIELDS numbers, in the order of the README's table; a row of a card is
   SURFPOCKET_SIZE_COLUMNS: pickup in mA, delay in ms, cutoff in mA or 0 for none, law, multiplier in thousandths. Fields 19 and 20
   are the current transformer's rated primary (0, or 1 to 20,000) and rated secondary (0, 1 or 5) in A. With 0 in both, the row's
   low, high and step and its pickup and cutoff on the card are primary mA; otherwise all five are secondary mA, the number keyed at
   the relay, and the primary current is that number times the rated primary over the rated secondary. All other currents of a row
   are primary. Fields 21 and 22 are the law (0 definite, 1 curve B, 2 curve C) and the greatest current at the row's near end, which
   a definite row has too. A definite row's multiplier on the card is 0, a curve row's delay is 0. */
#define SURFPOCKET_SIZE_FIELDS 22
#define SURFPOCKET_SIZE_COLUMNS 5
/* The most rows of a list, and the most bytes of its text. */
#define SURFPOCKET_SIZE_ROWS 256
#define SURFPOCKET_SIZE_TEXT 65536
/* Bytes that suffice for every card that surfpocket_card prints. */
#define SURFPOCKET_SIZE_PRINTED 33577

/* The numbers given back. */
#define SURFPOCKET_DONE 0
#define SURFPOCKET_REFUSED_TEXT 1
#define SURFPOCKET_REFUSED_COUNT 2
#define SURFPOCKET_REFUSED_ROOM 3
#define SURFPOCKET_REFUSED_FIELD 4
#define SURFPOCKET_REFUSED_TREE 5
#define SURFPOCKET_REFUSED_DELAY 7
#define SURFPOCKET_REFUSED_STUDY 8
#define SURFPOCKET_REFUSED_CARD 9
#define SURFPOCKET_REFUSED_EDIT 10
#define SURFPOCKET_REFUSED_RANGE 11
#define SURFPOCKET_REFUSED_OWN_ZONE 12
#define SURFPOCKET_REFUSED_BACKUP 13
#define SURFPOCKET_REFUSED_CURVE 14
#define SURFPOCKET_REFUSED_INPUT 16
#define SURFPOCKET_REFUSED_SLOPE 17

/* The laws of a row's time: a definite delay, or a curve of IEC 60255-151, B very inverse or C extremely inverse. */
#define SURFPOCKET_LAW_DEFINITE 0
#define SURFPOCKET_LAW_B 1
#define SURFPOCKET_LAW_C 2

/* The units of a reading. */
#define SURFPOCKET_UNIT_AMPERES 1
#define SURFPOCKET_UNIT_KILOAMPERES 2
#define SURFPOCKET_UNIT_PER_UNIT 3

/* The verdicts of the differential protection on a measured pair. */
#define SURFPOCKET_VERDICT_TRIP 1
#define SURFPOCKET_VERDICT_HOLD 2
#define SURFPOCKET_VERDICT_BLOCKED 3

/* Number, place (a row from 1, or 0; for CURVE the row whose M it is) and what names it more closely: for FIELD the field from 1, for
   BACKUP the fed row from 1, for any other number 0. */
typedef struct {
    uint64_t number;
    uint64_t place;
    uint64_t field;
} SurfpocketAnswer;

/* As SurfpocketAnswer, and how many rows were worked out: 0 on a refusal. */
typedef struct {
    uint64_t number;
    uint64_t place;
    uint64_t field;
    uint64_t rows;
} SurfpocketReplacement;

/* Number, place (0 the rated current or the unit, 1 the greatest reading, 2 the least), both currents in mA, and both sides of each
   reading: lower, the largest whole number of mA not above it, and upper, the smallest not below it. On DONE the two are equal
   exactly where the reading is a whole number of mA; on STUDY both currents and all sides are 0. */
typedef struct {
    uint64_t number;
    uint64_t place;
    uint64_t greatest;
    uint64_t least;
    uint64_t greatest_lower;
    uint64_t greatest_upper;
    uint64_t least_lower;
    uint64_t least_upper;
} SurfpocketStudy;

/* Number, place (for INPUT the argument, from 1, otherwise 0), the differential card: start, bend, blocking and cutoff in hundredths of
   the rated current, the slope in hundredths; and the verdict. Refused, the card's five and the verdict are 0. */
typedef struct {
    uint64_t number;
    uint64_t place;
    uint64_t start;
    uint64_t bend;
    uint64_t slope;
    uint64_t blocking;
    uint64_t cutoff;
    uint64_t verdict;
} SurfpocketDifferential;

/* As SurfpocketAnswer, for TEXT with the line as its place, and how many bytes were written. */
typedef struct {
    uint64_t number;
    uint64_t place;
    uint64_t field;
    uint64_t bytes;
} SurfpocketPrinted;

/* The whole calculation: gives DONE and writes the settings of each row to the front of the card, or gives the first refusal and
   leaves the card as it was. The card's numbers past its rows stay.
   Order: COUNT (no row, over 256, or a partial row: a length that is no multiple of 22), ROOM (fewer than 5 card numbers a row),
   FIELD over all rows ascending (in a row its fields ascending, then low above high, which is field 12, then high x rated primary
   above 100,000,000 x rated secondary, which is field 13; where field 19 is not 0, fields 12 to 14 go to 500,000 in their own turn
   and field 20 is 1 or 5; otherwise field 20 is 0), TREE over all rows ascending, then row by row RANGE, OWN ZONE or BACKUP before
   CURVE, and CURVE before DELAY. For RANGE, OWN ZONE and BACKUP the least pickup is taken that the relay offers and that meets P1
   and P2: RANGE where there is none, OWN ZONE where it fails P3, BACKUP where it passes P3 and fails P4 for a fed row, the first of
   which is named. No other pickup that the relay offers would do either.
   The time of a definite row is its delay. That of a curve row is 13.5 / (M - 1) (B) or 80 / (M x M - 1) (C) seconds times its
   multiplier, rounded up once to a whole ms; M is the current over the row's primary pickup, rounded down to thousandths and taken
   as 20 above 20. A row's time at the greatest current at its own near end is between its floor and its ceiling, and at least 100 ms
   for a motor; at the greatest current at the near end of each row that it feeds, referred by the two rows' volts, it is at least
   that row's own time there plus the larger of the two rows' time steps: 300, 500 or 200 ms for device 1, 2 or 3. The least delay
   of 0 to 100,000, or the least multiplier of 10 to 1,500, that meets all of it is taken; DELAY where there is none. CURVE, where
   an M of a curve row that this asks for is at most 1.000: in order the row's own M, then by fed rows ascending the fed row's and
   the row's own at the fed row's current.
   The other conditions are those of the README's table. They are judged on the exact primary currents, nothing being rounded but M
   and the times, as said. */
SurfpocketAnswer surfpocket_whole(const uint64_t *list, size_t list_length, uint64_t *card, size_t card_length);

/* The replacement of the row at a place (from 1) by a row of 22 numbers that keeps its number and its feeder: gives DONE, puts the
   row into the list and works out on the card the rows from it towards the source, or gives the first refusal and leaves list and
   card as they were (it may have written both meanwhile).
   The last row worked out is the first feeding row, after the replaced one, whose new card row equals its old one in all its
   numbers, or else the row that the source feeds; `rows` counts the rows from the replaced one up to and including the last, the
   relays that are to be visited. The replaced row itself never stops it, even where its card row stays. Rows past the last are not
   worked out: once CARD is passed they keep what they had and refuse nothing. On the card of an accepted list they are what starting
   afresh would give; on a card that is not the list's they may be anything that CARD lets in.
   The new row may have other ratings or another law than the old one: its new card row is by the new ones.
   Card rows off the path are read as they are and stay, and so do the card's numbers past its rows. Of a fed row there the card's law
   counts, not the list's, with its multiplier as it is, 0 to 9 too, if that law is a curve, and with its delay if it is definite.
   Order: COUNT, ROOM, EDIT (no row has that place, the new row is not 22 numbers, or its number or feeder is another), then FIELD
   and TREE over the list as it would be, CARD over all rows ascending (pickup 1 to 100,000,000, delay 0 to 100,000, cutoff 0 to
   100,000,000, law 0 to 2, multiplier 0 to 1,500; pickup and cutoff only to 500,000 in a row, other than the replaced one, that has a
   ratio in the list as it would be), then RANGE, OWN ZONE or BACKUP before CURVE, and CURVE before DELAY, row by row along the rows
   worked out; CURVE may name a fed row off the path, whose M by its lent pickup and law is at most 1.000. */
SurfpocketReplacement surfpocket_replace(uint64_t *list, size_t list_length, uint64_t *card, size_t card_length, uint64_t place,
                                         const uint64_t *row, size_t row_length);

/* The currents of a study in whole primary mA: gives DONE with the greatest (for `clear`, field 9) rounded up, the least (for `far`, field
   8) rounded down, and both sides of each reading, or STUDY with all six 0. `greatest` always equals `greatest_upper`, and `least`
   always equals `least_lower`. On DONE both are from 1 to 100,000,000; `greatest_lower` is the same as `greatest` or 1 less, so
   perhaps 0, and `least_upper` is the same as `least` or 1 more, so perhaps 100,000,001.
   A rated current, in mA, counts per unit only. Order: place 0 for a unit that is none of the three, or a needed rated current
   outside 1 to 100,000,000; then 1 for a greatest and 2 for a least reading that is not a number, infinite, negative, or, rounded
   so, outside 1 to 100,000,000 mA.
   A reading that is not a number may raise the floating-point flag FE_INVALID, as a signalling one does; no other flag is raised.
   A caller that has made that flag a trap screens its readings first. */
SurfpocketStudy surfpocket_study(uint64_t greatest_unit, float greatest, uint64_t greatest_rated,
                                 uint64_t least_unit, float least, uint64_t least_rated);

/* The differential card of a transformer, and the verdict on one measured pair. Every argument is a whole number of hundredths of
   the rated current: start, blocking and cutoff as they are to be set, through the greatest outside fault current; then what was
   measured: the currents of the first and of the second side, the differential and the restraint. For the card alone, give 0 for
   the measured four. In hundredths, nothing being rounded:
   Gives DONE with start, blocking and cutoff as they came, bend 100, and the least slope of 20, 30, .. 70 for which
   100 x start + slope x (through - 100) is at least 44 x through (1.1 x 0.4 of it). The verdict is TRIP where the differential is
   at or above the cutoff; otherwise BLOCKED where both sides are at or above blocking; otherwise TRIP where 100 x differential is
   at or above the characteristic, and HOLD below it. The characteristic is 100 x start up to a restraint of 100, and
   100 x start + slope x (restraint - 100) above it. The cutoff is not held against through.
   Order: INPUT where an argument is out of its range, with the lowest such place: 1 start, 20 to 100; 2 blocking, 150 to 300;
   3 cutoff, 650 to 1,200; 4 through, 100 to 2,000; 5 first, 6 second, 7 differential, 8 restraint, 0 to 10,000. Then SLOPE (place
   0) where none of the six slopes fits. */
SurfpocketDifferential surfpocket_differential(uint64_t start, uint64_t blocking, uint64_t cutoff, uint64_t through,
                                               uint64_t first, uint64_t second, uint64_t differential, uint64_t restraint);

/* The time in ms of curve B or C (law 1 or 2) at M thousandths with a multiplier of so many thousandths, rounded up once to a whole
   ms: what an injection set must show. 0 where the law is none of the two, M is outside 1,001 to 20,000 or the multiplier outside 10 to
   1,500; otherwise it is never 0. */
uint64_t surfpocket_time(uint64_t law, uint64_t multiple, uint64_t multiplier);

/* From the text of a list to its printed card or refusal, at the front of out; bytes past what is written stay.
   DONE: the card was written, in so many bytes. ROOM (place and field 0): the list has a card, and out is too short for it; nothing
   was written. Any other number refuses the list: TEXT (place 0 for over 65,536 bytes, tested first, or else the first bad line,
   the header being 1), then as surfpocket_whole does; the printed refusal was written if it fits into out, or else bytes is 0. */
SurfpocketPrinted surfpocket_card(const uint8_t *text, size_t text_length, uint8_t *out, size_t out_length);

#ifdef __cplusplus
}
#endif

#endif
