#!/usr/bin/env python3
"""Turns the definitions and lemmas of the crates from camel case to snake case, once.

usage: python3 tools/respell.py [TREE]    over TREE (here, if none is given), in place

Today's Rattle writes types and modules in upper camel case and every other name in snake case. port.py of
the kit respelled some of the repository's own names; this script does the others. It renames a name that is
written in camel case in an .antt file, wherever it stands: in .antt and .rt files, and in the pages that name it.
The names of types, of functions in src/, of exports and of what a program reads or writes are not camel case.
"""

import glob
import os
import re
import sys

TOKEN = re.compile(r"[A-Za-z_ℕ][A-Za-z0-9_ℕ]*")
CAMEL = re.compile(r"[a-z][a-z0-9]*(?:[A-Z][a-z0-9]*)+")
HEX = re.compile(r"x[0-9A-F]+")

# A name that would fall together with another one gets a name of its own. A definition that would have the
# name of a function or a variable of src/ beside it says that it is the specification's.
OWN = {
    "andThen": "and_then",
    "bySize": "by_size",
    "gapAt": "nth_gap",
    "gapNumbers": "gap_number_list",
    "noRecord": "no_gap_record",
    "sizeIs": "has_size",
}
BESIDE_CODE = """
addressAt allMissing anotherShape answerNumber areaNumber areaSize blockCount blocksGiven blocksNumber bodyGiven
boundByte boundNumber brokenRule bytesAfter checkPartTags digitsAt dwordAt e0Given e0Number e1Given e1Number
fieldNumber flagRule formAt formNumber formRule fromKnown fromPacket fromPart fromServer headSize itemsAt joinNumber
keptBytes keyFound keywordNumber knownGiven limitNumber nameLength nameNumber noFault noneMissing openingNumber
operatorByte operatorNumber ownSize packedBytes packetGiven packetNumbers pairsLength partCount partGiven putGaps
putRecord queryAt rangeRule rangesRule readerNumber reasonNumbers recordAt recordOf restTooLong runAfter runBefore
saveStrict serverGiven shapeNumber sizeGiven tagNumber tagsAt textSize tripleAt verdictNumber walkAt walkFrom
writeAddress writeAddresses writeFileEntry writeRecord writeRecords writeServerEntry
""".split()
# Words of the field, and not names of ours.
WORDS = {"aMule", "eMule", "eDonkey"}


def snake(name):
    if name in OWN:
        return OWN[name]
    plain = re.sub(r"(?<=[a-z0-9])(?=[A-Z])", "_", name).lower()
    return "spec_" + plain if name in BESIDE_CODE else plain


def names(tree):
    found = set()
    for path in glob.glob(os.path.join(tree, "crates", "**", "*.antt"), recursive=True):
        with open(path, encoding="utf-8") as f:
            for word in TOKEN.findall(f.read()):
                if CAMEL.fullmatch(word) and not HEX.fullmatch(word) and word not in WORDS:
                    found.add(word)
    return {name: snake(name) for name in found}


def main():
    tree = sys.argv[1] if len(sys.argv) > 1 else "."
    table = names(tree)
    taken = {}
    for old, new in sorted(table.items()):
        if taken.setdefault(new, old) != old:
            print(f"left: {old} and {taken[new]} would both be {new}")
    files = []
    for ending in ("antt", "rt"):
        files += glob.glob(os.path.join(tree, "crates", "**", "*." + ending), recursive=True)
    files += glob.glob(os.path.join(tree, "*.md")) + glob.glob(os.path.join(tree, "docs", "**", "*.md"), recursive=True)
    changed = 0
    for path in files:
        with open(path, encoding="utf-8") as f:
            text = f.read()
        new = TOKEN.sub(lambda m: table.get(m.group(), m.group()), text)
        if new != text:
            changed += 1
            with open(path, "w", encoding="utf-8") as f:
                f.write(new)
    print(f"respell: {len(table)} names, {changed} files")


if __name__ == "__main__":
    main()
