"""Currents of a study in whole mA, the greatest for clear and the least for far, and which readings were not whole."""
import surfpocket

AMPERES = surfpocket.CONSTANT["UNIT_AMPERES"]
KILOAMPERES = surfpocket.CONSTANT["UNIT_KILOAMPERES"]
PER_UNIT = surfpocket.CONSTANT["UNIT_PER_UNIT"]

PLACES = ["a rated current or a unit", "the greatest", "the least"]

# The greatest and the least reading, each with its unit, the single and the rated mA. A single holds 12.5 exactly and 12.3 only
# nearly, as 12.30000019: most decimal readings are not a whole number of mA.
STUDIES = {
    "12.5 kA and 8.25 kA": ((KILOAMPERES, 12.5, 0), (KILOAMPERES, 8.25, 0)),
    "12.3 kA and 8.2 kA": ((KILOAMPERES, 12.3, 0), (KILOAMPERES, 8.2, 0)),
    "4.5 and 0.7 per unit of 630 A": ((PER_UNIT, 4.5, 630000), (PER_UNIT, 0.7, 630000)),
    "900 A and -1 A": ((AMPERES, 900.0, 0), (AMPERES, -1.0, 0)),
}


def print_lost(name, lower, upper):
    if lower != upper:
        print(f"  the {name}, as a single, lies between {lower} and {upper} mA")


def main():
    library = surfpocket.load()
    for name, (greatest, least) in STUDIES.items():
        study = library.surfpocket_study(*greatest, *least)
        if study.number == surfpocket.DONE:
            print(f"{name}: greatest {study.greatest} mA, least {study.least} mA")
            print_lost("greatest", study.greatest_lower, study.greatest_upper)
            print_lost("least", study.least_lower, study.least_upper)
        else:
            print(f"{name}: STUDY, place {study.place} ({PLACES[study.place]})")


if __name__ == "__main__":
    main()
