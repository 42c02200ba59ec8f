"""A feeder and its incomer: works out their settings and prints the card."""
import surfpocket

# row, feeds_from, kind, volts, work, selfstart, return, far, clear, near, factor, low, high, step, device, floor, ceiling, backed,
# rated primary, rated secondary: 0 in both, so that the relays are keyed in primary mA; law: 0, so definite; the greatest current
# at the near end
ROWS = [
    [1, 2, 1, 35000, 180000, 1500, 935, 900000, 1000000, 1800000, 1300, 50000, 5000000, 1000, 1, 1900, 5000, 1, 0, 0, 0, 1800000],
    [2, 0, 1, 35000, 200000, 1500, 935, 1500000, 3300000, 5200000, 1300, 50000, 10000000, 10000, 1, 0, 3000, 0, 0, 0, 0, 5200000],
]


def main():
    rows = surfpocket.numbers(ROWS)
    card = surfpocket.empty_card(ROWS)
    answer = surfpocket.load().surfpocket_whole(rows, len(rows), card, len(card))
    if answer.number == surfpocket.DONE:
        surfpocket.print_card(card)
    else:
        surfpocket.print_refusal(answer)


if __name__ == "__main__":
    main()
