#!/usr/bin/env python3
"""Respells this repository's own definitions and lemmas as today's Rattle writes such names: words in snake case, facts in camel case.

usage: python3 tools/respell.py        at the top of the repository, once

`code-of` becomes `code_of`, `Written-so` becomes `WrittenSo`. The names are listed below. Words of the library and names that Rattle makes
(`loop-i-preserved`) keep their spelling. Only contracts, definitions and proofs are turned: comments and strings stay, and so do the names of
the functions in src/.
"""

import os
import re

NAMES = """
All-ranks Any-order Best-described Best-to Comes-before First-highest Highest-of-choices Made-where-lawful No-less No-worse One-answer-a-line
Rank-number Rounded-down Rounded-down-at Stands-for Two-letters-each Well-read Worked-hands Written-so above-nine above-one ace-low
ace-low-straight ace-place all-chosen all-of-suit all-parts all-unmap among-other and-exchanged and-four answer-for answer-of answer-text
answered-entry-is-paid as-computed as-listed b-pos before-arranges before-lines behind-both best-class best-hand best-in-any-order best-value-of
better-class-no-worse better-class-pays-no-less card-in-front card-lettered card-letters card-read card-with-code cards-of carries-across
carries-below choices-carry chosen-parts class-is class-is-best class-number class-numbered code-fault-number code-kept code-reads-back
comes-before count-any-order d-pos d-within decided-apart decided-asymmetric decided-chain decided-level decided-neither digit-below
digit-masked digit-of-zero digit-pow each-rank entries-if-rising entries-of entry-pays entry-pays-larger-no-less entry-rounded-down
exchange-falls exchange-keeps exchange-tied fifteen-tell figures-in-range figures-of-odds first-met five-items fourteen-letters from-ace from-ten
front-letters group-class groups-are hand-is has-figures has-rank head-exchanged head-held held-five held-lawful high-run highest-holds
highest-number highest-place highest-place-keeps highest-stands highest-value highest-value-is-one if-seven-different in-front in-front-behind
in-order-held in-order-of-places in-order-sorted in-range insertion-falls is-5 is-arranged is-highest-place is-itself is-not is-odds-of is-seven
is-tells joined-class joined-groups joined-is-class just-seven kept-length kind-missing kind-there kinds-missing kinds-there
larger-numerator-no-worse larger-wager-is-paid-no-less larger-wager-pays-no-less last-test later-no-worse lawful-is-rising leading-stands
leaving-x less-brings-less letter-of level-is-same lists-the-entries lower-asymmetric lower-chain lower-odds-pay-less
lower-odds-pay-less-on-some-wager lower-ranks lower-same lowest-ranks made-of-entries made-where-lawful masked-lt may-follow more-brings
neighbours-rise no-ace no-card no-less-brings no-less-chain no-lower-odds-pay-no-less no-more-kept no-newline no-straight no-worse no-worse-chain
no-worse-itself no-worse-pays-no-less no-worse-than-before none-exceeds none-exceeds-highest none-exceeds-itself not-seven nothing-above-nine
numbered-back odds-of of-a-kind of-two-kinds one-answer-a-line one-card-more one-entry-on one-entry-worse one-more-kept one-order one-read
one-suit one-test-more ones-ace-low ones-masked ones-or ones-pow ones-shifted ones-zero only-run or-false or-half paid-at paid-rounded-down
pays-rounded-down pick-four pick-full pick-none pick-pair pick-three pick-two-pairs placed-all placed-held placed-sorted pow-half printed-sheet
published-entries published-entries-rise published-is-listed published-is-made rank-at rank-in-range rank-letter rank-lettered rank-number
rank-there ranks-are ranks-asymmetric ranks-chain ranks-from-laws ranks-lawful ranks-of ranks-read ranks-same rate-sheet rate-sheet-is-lawful
read-ranks reads-back reads-well rest-ranks rising-from rising-is-lawful rounded-down royal-flush run-digit run-from run-from-zeros run-leading
run-ones run-place run-trailing same-arrangement same-figures same-first-met same-groups same-highest same-joined same-ones same-ranks
same-starts same-suit same-value second-kind-missing seven-and-more seven-at-end seven-cards seven-different seven-items seven-read shown-groups
shows-four shows-full-house shows-none shows-pair shows-three shows-two-pairs shuffled-tied some-card some-d some-found some-n some-rank
some-rank-true some-value sorted-at stands-first start-bounds starts-at stays-in-range stepped-sheet straight-starts sub-ones suit-any-order
suit-at suit-is suit-letter suit-lettered suit-number suit-of-first suit-there taking-x test-tells text-after threes-beat-twos threes-full to-1
to-nine told-at-end told-from told-high told-low told-test turned-too two-exchanged two-letters-each two-pairs twos-full value-any-order value-is
values-are values-carry values-of-choices values-rank well-read what-is-paid-is-rounded-down where-met with-rank with-suit with-these-figures
worked-hands
""".split()

# a local name that a script wrote with a capital
ODD = {"Going-on": "going_on"}

# behind a dot these are names that Rattle makes: that a joined variable `class` has this value
MADE = {"class-is", "hand-is", "suit-is", "value-is"}

TOKEN = re.compile(r"(?<![\w'-])(\.?)([A-Za-z][\w'-]*)(?![\w'-])")
STRING = re.compile(r'"[^"]*"')


def today(name):
    if name in ODD:
        return ODD[name]
    words = name.split("-")
    return "".join(w.capitalize() for w in words) if name[0].isupper() else "_".join(words)


NEW = {name: today(name) for name in [*NAMES, *ODD]}


def turned(text):
    def one(match):
        dot, name = match.groups()
        if name not in NEW or (dot and name in MADE):
            return match.group(0)
        return dot + NEW[name]

    return TOKEN.sub(one, text)


def line(text, comment):
    body, mark, rest = text.partition(comment)
    parts, at = [], 0
    for string in STRING.finditer(body):
        parts += [turned(body[at : string.start()]), string.group(0)]
        at = string.end()
    return "".join(parts) + turned(body[at:]) + mark + rest


def main():
    for folder, folders, files in os.walk("crates"):
        folders[:] = [f for f in folders if f != "out"]
        for name in files:
            if not name.endswith((".rt", ".antt")):
                continue
            path = os.path.join(folder, name)
            with open(path, encoding="utf-8") as f:
                old = f.read()
            comment = "//" if name.endswith(".rt") else "-- "
            new = "\n".join(line(text, comment) for text in old.split("\n"))
            if new != old:
                with open(path, "w", encoding="utf-8") as f:
                    f.write(new)


if __name__ == "__main__":
    main()
