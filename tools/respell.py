#!/usr/bin/env python3
"""Respells the repository's own definitions, fields and lemmas: words in snake case, joined by an underscore.

usage: python3 tools/respell.py [--look]      at the top of the repository; --look writes nothing, and lists names that fall together

A dash stays where it joins the names of two functions, as in `length-flipped`, the length of what `flipped` gives.
Names of src/ (functions, variables), strings, inputs and outputs are not in the list, so they stay.
"""

import re
import sys
from pathlib import Path

# A dash becomes an underscore in each of these.
SNAKE = """
after-base after-count after-kind after-trays all-reversed all-spun and-mark apart-count away-more away-none
away-place bit-first bit-next bit-other bit-same bit-zero blank-stays blanks-read block-exchange block-move
block-moved block-turned changed-all changed-in changed-out changed-past changed-same changed-swap
changed-twice count-apart count-given count-le count-words decides-leb digits-read dual-as-turns dual-begin
every-decides filled-all first-in-order first-none flip-inside flip-within flipped-over from-accepted
from-test home-like in-order-decides in-range inverse-at inverse-fits inverse-kept inverse-like inverse-moved
inverse-past inverse-permutation inverse-twice is-dual is-w kind-dual kind-duals kind-lawful kind-name
kind-relabelling laid-home last-from last-is last-to line-more line-tray mark-is marks-below marks-count
marks-more marks-next marks-none mirror-base mirror-from mirror-highest mirror-home mirror-lowest mirror-to
mirror-trays mirror-turn mirror-twice more-spun moved-from moved-permutation moved-relabelled no-inverse
none-spun not-before not-in-order not-refused number-regular number-tray numbered-decides on-far on-near on-to
on-within one-fault ones-or ones-zero or-first or-half ordered-inverse ordered-moved ordered-relabelled
over-both permutation-decides place-on plain-kind pow-half relabel-base relabel-home relabel-like
relabel-trays relabelled-as relabelled-none relabelled-permutation relabelled-twice relabelling-duals
renumbered-again renumbered-same repeats-decides resumes-end resumes-more resumes-refused resumes-start
resumes-told reversed-between reversed-part ring-kind run-exchange run-move run-reversed run-turned
same-highest same-lowest same-ring same-tower seen-before sided-first sided-kind sided-not sided-regular
sided-swap sided-tray sided-twice some-decides span-at span-begin span-given span-words spun-all spun-more
spun-none stands-decides start-within steps-to stuck-end task-words through-brings through-told to-250 to-far
to-near to-on to-test told-home tray-at tray-count tray-more trays-more turn-exchange turn-moves turned-over
turned-over-at turned-over-more turns-begin twice-by
""".split()

# These are written otherwise: a dash stays between the names of two functions, or the name was in camel case.
OTHERWISE = {
    "bit-or": "bit-bit_or",
    "getD-flipped": "get_or-flipped",
    "length-turned-over": "length-turned_over",
    "mayEnd": "may_end",
    "mayStand": "may_stand",
    "number-at-relabelled": "number_at-relabelled",
    "tray-at-inverse": "tray_at-inverse",
    "tray-at-relabelled": "tray_at-relabelled",
}

RENAMED = {name: name.replace("-", "_") for name in SNAKE} | OTHERWISE

# A word of a proof file: a name may have dashes, primes and letters of any alphabet.
WORD = re.compile(r"[\w'-]+")


def respelled(text):
    return WORD.sub(lambda m: RENAMED.get(m[0], m[0]), text)


def files():
    for crate in sorted(Path("crates").iterdir()):
        for folder, ending in (("specs", "antt"), ("proofs", "antt"), ("src", "rt")):
            yield from sorted((crate / folder).rglob(f"*.{ending}"))


def fallen_together(text):
    words = set(WORD.findall(text))
    return sorted(f"{old} and {new}" for old, new in RENAMED.items() if old in words and new in words)


def main(look):
    for path in files():
        text = path.read_text()
        if look:
            for names in fallen_together(text):
                print(f"{path}: {names}")
        elif respelled(text) != text:
            path.write_text(respelled(text))


if __name__ == "__main__":
    main("--look" in sys.argv[1:])
