"""A feeder and its incomer: one changed load on the old card, changes that are refused and leave the card alone, another device,
a relay keyed in secondary mA, and one on a curve. Then a plant of eight rows: how far a changed load goes, and so which relays the fitter visits."""
import itertools

import surfpocket

# row, feeds_from, kind, volts, work, selfstart, return, far, clear, near, factor, low, high, step, device, floor, ceiling, backed,
# rated primary, rated secondary: 0 in both, so that the relays are keyed in primary mA; law: 0, so definite; the greatest current
# at the near end
F1 = [1, 2, 1, 35000, 180000, 1500, 935, 900000, 1000000, 1800000, 1300, 50000, 5000000, 1000, 1, 1900, 5000, 1, 0, 0, 0, 1800000]
IN = [2, 0, 1, 35000, 200000, 1500, 935, 1500000, 3300000, 5200000, 1300, 50000, 10000000, 10000, 1, 0, 3000, 0, 0, 0, 0, 5200000]
PLANT = surfpocket.HOME / "examples/lists/plant-35-6.csv"
# places in a row, from 0
FEEDS_FROM = 1
WORK = 4
FAR = 7
LOW = 11
DEVICE = 14
RATED_PRIMARY = 18
LAW = 20
NEAR_GREATEST = 21


def changed(row, field, value):
    return row[:field] + [value] + row[field + 1 :]


def keyed_in_secondary(row):
    """The row with pickups of 500 to 80,000 secondary mA in steps of 10, behind a transformer of 300/5 A."""
    return row[:LOW] + [500, 80000, 10] + row[DEVICE:RATED_PRIMARY] + [300, 5] + row[LAW:]


def path(rows, place):
    """The row's place, that of the row that feeds it, and so on to the source."""
    while place:
        yield place
        place = rows[(place - 1) * surfpocket.FIELDS + FEEDS_FROM]


def replace(library, rows, card, new):
    """Puts the new row into the list and works out the card with it; prints what comes of it."""
    new = surfpocket.numbers([new])
    answer = library.surfpocket_replace(rows, len(rows), card, len(card), new[0], new, len(new))
    if answer.number == surfpocket.DONE:
        surfpocket.print_card(card)
    else:
        surfpocket.print_refusal(answer)
    visits = [str(place) for place in itertools.islice(path(rows, new[0]), answer.rows)]
    print(f"rows worked out: {answer.rows}; relays to visit: {', '.join(visits) or 'none'}")


def first_card(library, rows):
    """The list as the library is lent it, and its card, printed."""
    lent, card = surfpocket.numbers(rows), surfpocket.empty_card(rows)
    library.surfpocket_whole(lent, len(lent), card, len(card))
    surfpocket.print_card(card)
    return lent, card


def main():
    library = surfpocket.load()
    rows, card = first_card(library, [F1, IN])
    print("row 1, work 190,000 mA:")
    replace(library, rows, card, changed(F1, WORK, 190000))
    print("row 1, far 431,000 mA:")
    replace(library, rows, card, changed(F1, FAR, 431000))
    print("row 2, pickups from 760,000 mA on:")
    replace(library, rows, card, changed(IN, LOW, 760000))
    print("the card after them:")
    surfpocket.print_card(card)
    print("row 2, an electromechanical relay:")
    replace(library, rows, card, changed(IN, DEVICE, 2))
    print("row 1, keyed in secondary mA behind 300/5 A:")
    keyed = keyed_in_secondary(changed(F1, WORK, 190000))
    replace(library, rows, card, keyed)
    print("row 1, curve B:")
    curve = changed(keyed, LAW, surfpocket.CONSTANT["LAW_B"])
    replace(library, rows, card, curve)
    print("row 1, curve B, at most 335,000 mA at its near end:")
    replace(library, rows, card, changed(curve, NEAR_GREATEST, 335000))
    print("the plant:")
    _, plant = surfpocket.read_list(PLANT)
    rows, card = first_card(library, plant)
    print("row 1, work 121,000 mA:")
    replace(library, rows, card, changed(plant[0], WORK, 121000))
    print("row 1, work 118,000 mA:")
    replace(library, rows, card, changed(plant[0], WORK, 118000))


if __name__ == "__main__":
    main()
