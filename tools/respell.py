#!/usr/bin/env python3
"""Gives the repository's own definitions and lemmas the spelling of today's Rattle, once, behind the kit's port.py.

usage: python3 tools/respell.py [FOLDER]     FOLDER has crates/, and is the one that this script stands in if none is given

Words are in snake case; a dash is kept where it joins the names of two definitions.
Functions of src/ have no such names, so whole names are replaced wherever they stand in .rt, .antt and .edit files.
"""
import os
import re
import sys

# what has a capital inside, letter by letter
CAMEL = """
acceptedIn acknowledgementTests allPlaced answerLines anyBelow bagHead bagLines bagTests bagsOf bodiesOf bodyIn
bothEqual byEntries councilLines endedLine entriesFrom equalLengths equalSnapshots equalTerms faultAt filedMail
filledPhases firstBags headIn headLines headTests heldCount hostLine hostLines inCells inputsAt isCandidateCount
isFaultSet isFiled isGenuine isHostCount isInside isMaskOf isMet isPair keepingOf kindLines layerNumber lengthIn
lineIf lineText listAt listsFrom longWord mailAt mailIn metBy metOf mostBodies namesExactly newAt noMail ofHost
onlyBelow perHost placeAt placesTests readBag recipientOf samePosition sameSort sealFault sealedAll senderOf
setupFault setupNumber setupSize shortText sizeIn snapshotAt snapshotText sortIndex sortLines spanText sumBelow
termAt termText textOf turnByTurn unlessRefused verdictText warrantFront warrantTests withBag withEntry
writtenSchedule
"""

# lemmas whose dash joins plain words
DASHED = """
aft-read all-cong all-each all-false any-cong any-true bags-few bags-more bags-torn bit-other both-met bounds-stay
byte-in-front cases-pair cell-one cells-none cells-set count-all count-below count-empty count-le count-more
count-sealed fits-front fits-lists fore-read free-inside front-byte genuine-for-good genuine-held genuine-is
genuine-since given-read has-past headed-is headed-read holds-is host-more host-same last-few last-torn lines-short
list-fits long-in-front lowest-is lowest-none lowest-some mail-filed names-none no-list no-refusal none-filed
nothing-filed offset-filed one-le only-place opened-err opened-ok pair-below part-is part-read phases-more
phases-same place-honest place-some same-is same-itself same-places same-sort-is sealed-at sealed-cells sealed-fits
sealed-genuine sealed-held sealed-in-genuine sealed-not sealed-own sealed-parts sealed-rows sealing-for-good
set-either settled-already settled-bodies settled-cond settled-content settled-giving settled-lists settled-part
settled-then some-place sort-below sort-itself sort-one sort-short sorts-apart sound-cycle sound-entries sound-if
sound-turns sound-void split-mask sum-cong sum-le sum-none then-aft warrant-sound whole-read with-here with-other
word-in-front
"""

# names that would fall together with another, and names of two definitions
OTHERS = {
    "getD-perHost": "get_or-per_host",
    "is-genuine": "is_genuine_lem",
    "leftOver": "left_over_turn",
    "perHost-all": "per_host_all",
    "same-pair": "same_pair_lem",
}


def snake(name):
    return re.sub(r"(?<=[a-z])[A-Z]", lambda m: "_" + m[0].lower(), name)


def table():
    new = {n: snake(n) for n in CAMEL.split()}
    new |= {n: n.replace("-", "_") for n in DASHED.split()}
    return new | OTHERS


def main(root):
    new = table()
    one = re.compile(r"(?<![\w'-])(" + "|".join(sorted(map(re.escape, new), key=len, reverse=True)) + r")(?![\w'-])")
    for folder, dirs, files in os.walk(os.path.join(root, "crates")):
        dirs[:] = [d for d in dirs if d != "out"]
        for f in sorted(files):
            if not f.endswith((".rt", ".antt", ".edit")):
                continue
            path = os.path.join(folder, f)
            with open(path, encoding="utf-8") as it:
                was = it.read()
            now = one.sub(lambda m: new[m[0]], was)
            if now != was:
                with open(path, "w", encoding="utf-8") as it:
                    it.write(now)


if __name__ == "__main__":
    here = os.path.dirname(os.path.dirname(os.path.realpath(__file__)))
    main(sys.argv[1] if len(sys.argv) > 1 else here)
