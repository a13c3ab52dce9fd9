#!/usr/bin/env python3
"""Respells this repository's own names in contracts, specs and proofs as today's Rattle spells its own:
facts and types in camel case, every other word in snake case, a dash only between two names of one lemma.

usage: tools/respell.py        at the top of the repository, once, after the kit's port.py

Code (functions, types, modules), strings and comments are left alone. Prints how many places it turned, and
stops without a change where two names would fall together in one file.
"""
import pathlib, re, sys

# a fact or a type
CAMEL = """
Bond-date In-calendar In-month In-range In-turn Latest-business Pro-rata-spreads Share-date Third-Friday
Ticket-of Tickets-shared-out Wheel-goes-round
""".split()

# a lemma whose dash joins the names of two functions
JOINED = {
    "total-append": "total-append", "total-set": "total-set", "total-less": "total-less",
    "total-filled": "total-filled", "length-filled": "length-filled", "length-less": "length-less",
    "getD-less": "get_or-less", "within-append": "within-append",
}

# every other definition, constructor, field or lemma: words joined by `_`
SNAKE = """
All-more account-count after-blanks after-echo after-round along-word amount-1996 amount-2017 amount-of-choice
answer-text award-before award-on award-words basis-within before-long bond-once bounded-1996 bounded-2017
by-none by-on by-remainder call-at-edge call-beyond cash-ceiling choice-awards choice-fair choice-next
claim-more claims-of class-word cond-false count-split cut-some cut-within days-of-months
days-of-months-more days-of-months-most days-of-years days-of-years-is days-since double-bounded draw-of
draw-words drawing-of drawing-words each-account each-claim echoed-on echoed-push entry-stands entry-within
equal-below expiry-words fair-given falls-on fault-of fault-text fewer-after figure-of figures-text
filled-order filled-short first-draw first-largest first-ticket friday-from front-inside got-more hears-same
hears-then in-proportion in-turn in-turn-more instruction-count is-error is-first-largest is-friday is-map
its-account its-award j-before j-on large-at-err latest-from length-of listed-is long-awards long-rests
longest-line lot-more lot-of lot-size-measure lot-words lots-drawn lots-measure lots-read lottery-at
lottery-awards lottery-fair lottery-next market-word meant-push mid-starts month-length month-length-is
month-length-most month-lengths more-before next-follows no-bond-date nothing-heard number-at-ok number-on
of-no-other on-byte on-end one-drawn one-higher open-day percentage-measure percentage-within place-before
place-some place-stands plain-awards plain-fair plain-next price-measure pro-rata pro-rata-draw pro-rata-fair
pro-rata-proportional product-bounded proportional-given put-at-edge put-beyond quotient-up read-as-again
read-each read-measured read-once read-read remainder-below round-from-1 round-on round-takes round-went
rounds-awards rounds-end rounds-ended rounds-enough rounds-fair rounds-next rounds-of-2 rounds-over
rounds-until rounds-words row-ceiling rule-1996 rule-2017 same-on same-rounds same-wheel series-count
session-measure share-bounded share-found size-within some-largest strategy-count strike-bounded
strike-within tenth-of-strike the-bond-date theoretical-measure third-counts third-friday-is
third-friday-once ticket-drawn tickets-shared-out times-bounded to-mid total-more total-within twice-basis
underlying-count units-ceiling until-on until-used until-went used-up value-bounded verbs-utf8 weekday-below
weekday-from went-nowhere wheel-at wheel-awards wheel-fair wheel-goes-round word-ends word-long words-utf8
x-after year-length year-of
""".split()

NEW = {n: "".join(w[0].upper() + w[1:] for w in n.split("-")) for n in CAMEL}
NEW.update(JOINED)
NEW.update({n: n.replace("-", "_") for n in SNAKE})

NAME = re.compile(r"[A-Za-z0-9_'ℕℤ-]+")
# a string or a comment, of which nothing is turned
LEFT = {".antt": re.compile(r'"(?:[^"\\]|\\.)*"|(?:^|(?<=\s))--.*$'), ".rt": re.compile(r'b?"(?:[^"\\]|\\.)*"|//.*$')}


def turned(line, left):
    out, at = [], 0
    spans = [m.span() for m in left.finditer(line)] + [(len(line), len(line))]
    for start, end in spans:
        out.append(NAME.sub(lambda m: NEW.get(m.group(0), m.group(0)), line[at:start]))
        out.append(line[start:end])
        at = end
    return "".join(out)


def names(text, left):
    # a part of a path is no name of the file
    return {n for line in text.split("\n") for n in re.findall(r"(?<![\w.'-])[A-Za-z0-9_'ℕℤ-]+(?![\w.'-])", left.sub(" ", line))}


def main():
    places, clashes, changed = 0, [], {}
    for path in sorted(pathlib.Path("crates").rglob("*")):
        if path.suffix not in LEFT or "out" in path.parts:
            continue
        text, left = path.read_text(), LEFT[path.suffix]
        if path.suffix == ".antt":
            had = names(text, left)
            clashes += [f"{path}: {n} and {NEW[n]}" for n in sorted(had) if NEW.get(n, n) != n and NEW[n] in had]
        new = "\n".join(turned(line, left) for line in text.split("\n"))
        places += sum(a != b for a, b in zip(text.split("\n"), new.split("\n")))
        changed[path] = new
    if clashes:
        sys.exit("\n".join(clashes))
    for path, new in changed.items():
        path.write_text(new)
    print(f"{places} lines turned")


main()
