#!/usr/bin/env python3
"""Brings this repository's own names in definitions and lemmas to the library's spelling: words in snake case, types in
camel case, no question marks. Run once at the top, after the toolchain's own script. Functions of src/, strings, inputs
and outputs keep theirs."""
import os
import re

NAMES = {
    "One-form": "OneForm",
    "alike?": "alike_decided",
    "both?": "both_decided",
    "pair?": "same_decided",
    "symbol?": "Symbol-discrete",
    "words-join": "words_join",
    "clause-packs": "clause_packs",
}
CAMEL = """badLine clauseForm countLine faultLine gatheredFrom goOn headAt inLiteral layerName layerNames listedFrom
literalTold noRoom nodeAt nodeName nodeNumber numberLine oneEntry packedNode packedSymbol placeFaultLine placeForm
placeListed placeSentence predicateOf readLiteral readLiterals readNumber readRecord readWords seenAfter shownFrom
symbolName symbolNumber takenLine variableAt wordsAt wordsFrom andThen andThen-made readPlace gatheredLines layeredLine
literalPart literalSentence recordFaultLine recordListed recordSentence shownClause wordSentence""".split()
for n in CAMEL:
    NAMES[n] = re.sub(r"(?<=[a-z0-9])([A-Z])", lambda m: "_" + m.group(1).lower(), n)
WORD = re.compile(r"(?<![\w'?-])(" + "|".join(re.escape(n) for n in sorted(NAMES, key=len, reverse=True)) + r")(?![\w'?-])")

for folder, dirs, files in os.walk("crates"):
    dirs[:] = sorted(d for d in dirs if d != "out")
    for f in sorted(files):
        if f.endswith((".antt", ".rt")):
            path = os.path.join(folder, f)
            with open(path, encoding="utf8") as it:
                old = it.read()
            new = WORD.sub(lambda m: NAMES[m.group(1)], old)
            if new != old:
                with open(path, "w", encoding="utf8") as it:
                    it.write(new)
