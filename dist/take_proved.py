"""Lets `rt lib` take the libraries that `rt ci` proved in this checkout, in place of proving each of them once more.

    python3 dist/take_proved.py

`rt ci` leaves each library in crates/NAME/out/rlib, and no note of the text that it was made of. This writes that note, the
kit's own sum of the text, beside each library that has none, and that rt has a record of (proved.py) or that is newer than all its
text. It is for making the archive and its tests: what is proved is what `rt ci` says. With another kit than the one in README.md it
may find nothing to do; `rt lib` then proves all.
"""
import os
import sys

sys.dont_write_bytecode = True

import proved


def is_taken(records, crate):
    """Whether a library has no note, and is made of the text that is here."""
    made = f"{crate.rlib}/format"
    if not crate.makes_rlib() or not os.path.isfile(made) or os.path.exists(f"{crate.folder}/out/rlib/stamp"):
        return False
    return records.is_proved_library(crate.name) or proved.is_newer(made, crate.name)


def main():
    try:
        records, noted = proved.Records(), 0
    except proved.UNREADABLE as fault:
        sys.exit(f"no libraries taken from rt ci: its records can't be read ({fault})")
    for crate in records.crates.values():
        if is_taken(records, crate):
            with open(f"{crate.folder}/out/rlib/stamp", "w", encoding="utf-8") as file:
                file.write(crate.stamp())
            noted += 1
    print(f"{noted} libraries taken from rt ci")


if __name__ == "__main__":
    main()
