"""A 6 kV bus with motors on extremely inverse curves: its card, and for each curve relay the times that an injection set must show."""
import surfpocket

BUS = surfpocket.HOME / "examples/lists/motor-curves.csv"
CURVES = {surfpocket.CONSTANT["LAW_B"]: "B", surfpocket.CONSTANT["LAW_C"]: "C"}

# thousandths of the pickup
INJECTED = (2000, 5000, 10000, 20000)


def main():
    library = surfpocket.load()
    names, plant = surfpocket.read_list(BUS)
    rows, card = surfpocket.numbers(plant), surfpocket.empty_card(plant)
    library.surfpocket_whole(rows, len(rows), card, len(card))
    surfpocket.print_card(card)
    for at, name in enumerate(names):
        law, multiplier = card[at * surfpocket.COLUMNS + 3 : (at + 1) * surfpocket.COLUMNS]
        if law in CURVES:
            times = [f"{library.surfpocket_time(law, multiple, multiplier)} ms" for multiple in INJECTED]
            print(f"{name}, curve {CURVES[law]} times {multiplier / 1000:.3f}: {', '.join(times)}")


if __name__ == "__main__":
    main()
