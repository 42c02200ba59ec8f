"""The differential card of a transformer, and the verdicts on what a disturbance recorder measured."""
import surfpocket

# hundredths of the rated current
START, BLOCKING, CUTOFF = 30, 200, 700

# The currents of both sides, the differential and the restraint.
PAIRS = {
    "normal load": (100, 98, 5, 99),
    "outside fault": (180, 190, 60, 185),
    "outside fault, a current transformer saturated": (380, 395, 240, 388),
    "inside fault, fed from one side": (120, 10, 130, 65),
    "inside fault, heavy": (900, 150, 1050, 525),
}


def main():
    library = surfpocket.load()
    for through in (250, 400, 100):
        settings = (START, BLOCKING, CUTOFF, through)
        print(f"greatest outside fault current {through / 100:.2f}")
        for name, pair in PAIRS.items():
            card = library.surfpocket_differential(*settings, *pair)
            if card.number != surfpocket.DONE:
                print(f"  {surfpocket.name_of('REFUSED_', card.number)}, place {card.place}")
                break
            print(f"  slope {card.slope / 100:.1f}, {name}: {surfpocket.name_of('VERDICT_', card.verdict)}")


if __name__ == "__main__":
    main()
