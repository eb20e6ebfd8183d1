#!/usr/bin/env python3
"""Brings the names of this repository's definitions and lemmas to the spelling that Rattle's library has: words in snake case,
types in camel case. It was run once, right after the toolchain's own script for the same change of spelling:

    python3 tools/respell.py

A dash stays in a lemma that is named by its left side, as `length-put`, the length of what `put` gives.
"""
import glob
import re

# each gets an underscore for each dash
PLAIN = """
accepted-layout acts-on-good-frames all-copied all-erased all-played all-written allowed-lawful answer-byte
apart-same apart-then apart-wider application-address application-place application-size as-event at-lawful
blank-mended boot-address boot-place by-ccitt by-crc8 by-made by-plan by-sum by-vector byte-digits bytes-are
calm-step can-start carried-done carried-lost ccitt-accepts ccitt-check ccitt-digits ccitt-erase-app ccitt-jump
ccitt-means ccitt-needs ccitt-step ccitt-stored ccitt-sums changed-apart changed-fits changed-left chosen-startable
cleared-app cleared-mark cleared-safe copies-end copies-next copies-within copying-all copying-more copying-none
copying-stopped crc8-accepts crc8-check crc8-digits crc8-means crc8-needs crc8-step crc8-stored crc8-sums cuts-at
cuts-more cuts-with done-touched download-address download-place entry-field entry-is erase-answer erase-app
erase-fine erase-lawful erase-met erase-not erase-segment erased-below erased-entry erased-from erased-more
erases-above erases-end erases-next erases-within erasing-lost err-same error-not-good error-not-more
event-not-restart events-at events-more events-step events-stop fault-number fed-by-table field-text filled-front
finished-low first-u first-v flash-mix flash-sound fram-mix fram-sound frame-length frames-law fresh-is from-cuts
from-events good-sized good-sum headed-is hear-lawful hear-layout hear-open held-end held-run held-step history-more
is-finished is-high is-listening is-low is-off is-past is-torn is-wrong job-number judge-sized jump-lawful jump-plan
jump-step jumps-told kind-of law-e law-f laws-e laws-f leads-end leads-next leads-stop left-done length-twenty
length-zero line-bytes lines-stop lines-told lost-at lost-not-chosen lost-not-said lull-run mark-is memory-of
mended-boot mended-mark mends-approved mends-erased mends-within mid-put misuse-text more-digits need-of new-sound
no-sums none-accepted none-false none-finished none-map not-past not-refused nothing-ran obey-lawful ok-not-err
one-digit open-still over-not part-read past-not-lost payload-ends payload-event payload-goes-on phase-is plan-is
plan-within put-there ran-apart ran-as ran-from ran-off ran-part ran-size ran-stopped reads-part reboot-mark
reboot-pending refusal-number report-text restart-job room-is room-same run-open said-not-chosen same-app script-at
sealed-good sealed-is segment-copied segment-copy simulated-laws sized-good sized-more some-entry sound-run
sound-step status-address step-open sum-low-event take-front take-least the-address the-counted the-digit the-effect
the-entry the-event the-events the-fate the-kind the-letter the-script told-end told-startable torn-erase
torn-touched torn-write touched-length touched-other two-more vector-check vector-means vector-needs vector-stored
verdict-means verdict-text view-bytes view-same waiting-not whole-line whole-size with-kind within-append
within-from word-digits write-block write-lawful write-not writes-above writes-next writes-within writing-lost
written-more wrong-address wrong-sum zero-not
"""

# types and facts, and lemmas named by a word that the library spells anew
OTHER = {
    "Acts-on-good-frames": "ActsOnGoodFrames",
    "Benched-on": "BenchedOn",
    "Called-on": "CalledOn",
    "Carries-a-byte": "CarriesAByte",
    "Erasing-lost": "ErasingLost",
    "First-finished": "FirstFinished",
    "First-uncut": "FirstUncut",
    "Good-frame": "GoodFrame",
    "Has-entry": "HasEntry",
    "Holds-ccitt": "HoldsCcitt",
    "Holds-crc8": "HoldsCrc8",
    "Jump-answered": "JumpAnswered",
    "Jump-frame": "JumpFrame",
    "Jumps-told": "JumpsTold",
    "Names-a-task": "NamesATask",
    "Needs-its-sum": "NeedsItsSum",
    "So-far": "SoFar",
    "Supply-told": "SupplyTold",
    "Taken-on": "TakenOn",
    "Told-end": "ToldEnd",
    "Writing-lost": "WritingLost",
    "getD-put-above": "get_or-put_above",
    "getD-put-below": "get_or-put_below",
    "getD-put-here": "get_or-put_here",
    "getD-view": "get_or-view",
    "getD-view-past": "get_or-view_past",
}

NAMES = {name: name.replace("-", "_") for name in PLAIN.split()} | OTHER
TOKEN = re.compile(r"[^\s(){}\[\].,;@\"`]+")


def respelt(text):
    return TOKEN.sub(lambda m: NAMES.get(m.group(), m.group()), text)


def main():
    changed = 0
    for kind in ("specs/**/*.antt", "proofs/**/*.antt", "src/**/*.rt", "must-fail/*.edit"):
        for path in sorted(glob.glob("crates/*/" + kind, recursive=True)):
            with open(path, encoding="utf-8") as f:
                old = f.read()
            new = respelt(old)
            if new != old:
                with open(path, "w", encoding="utf-8") as f:
                    f.write(new)
                changed += 1
    print(f"{changed} files changed")


main()
