#!/usr/bin/env python3
"""Brings the names of definitions and lemmas to the spelling of Rattle's library: words in snake case.

usage: python3 tools/respell.py      once, at the top, after the toolchain's port.py (which respells only names that its library shares)

A name keeps its words: capitals inside it become `_` and a small letter, dashes become `_`. Types, modules, functions of src/, strings,
inputs and outputs stay. Where a lemma would fall together with a definition, or with a ghost member of a trait, it ends in `_lem`.
"""
import os
import re

# lemmas that would meet another name
APART = {
    "credited-month": "credited_month_lem",  # creditedMonth is a definition of tally
    "has-days": "has_days_lem",  # hasDays, of billing
    "in-year": "in_year_lem",  # inYear, of calendar
    "first-date": "first_date_lem",  # firstDate, of calendar
    "last-date": "last_date_lem",  # lastDate, of calendar
    "first_counted": "first_counted_lem",  # firstCounted, of calendar; port.py had turned first-counted
    "failure-bounded": "failure_bounded_lem",  # the ghost member of Basis
}

NAMES = """
accrued-more after-in-month after-in-year after-month-index after-rank after-year asWrong at-stop
available-falls available-low back-and-there balance-push balanceOf baseBill basic-low basicCharge best-leads
best-low block-low blockCharge blockSize both-windows by-kw calendar-laws cents-below cents-rises charges-low
classOn closedAt count-date countIn counted-few counted-under credit-price-low creditLine creditOf creditPrice
credited-holds credited-in-order credited-month credited-spans creditedMonth creditedSeason curtailable-low
curtailable-more date-at date-in dateOf dateOf-is dateOf-number dateOf-real dateToday dated-is dates-in-order
day-curtailable-low day-energy-low day-length day-low dayAfter dayFigures dayNumber dayOf dayTaken days-in-order
daysOf december-spans demand-low demandCharge demandFloor demandIn demandOf distributionDemand drop-under
during-under endingAfter energy-low energy-more enteredFor enteredHeader enteredPair err-from exactly-none
excess-low excessCharge failing-low failure-bounded failure-price-low failurePrice faultLine february-least
february-most figures-within figuresAt figuresIn figuresOf filed-modest firmIn first-date first-fails
first-opens first-opens-by first-winter firstCounted firstDate firstDateIn firstDay firstDayOf first_counted
five-orderly five-tell floor-low floor-part freeOf from-2000 from-January fromYear front-first front-push
full-days goesOn good-day gs3evHeader halfHours halvesIn has-days has-number hasDays hasThirty headerOf
held-between held-by-month held-credited held-from highest-leads highest-under in-its-month in-month
in-next-year in-year inDecember inEach inLateWinter inPlace inSeason inSummer inWindows inYear inside-drop
inside-part isFull isMonth kept-rate keptAfter keptFor keptIn keptPeak kindIn kindIndex last-date last-first
last-winter lastDate lastDateIn lastDay lastDayOf lastTaken late-winter-spans length-parts limitOf limitedBoth
mapOk maximum-both maximum-each maximum-grows maximum-on maximum-range measuredDay metered-bounded metered-falls
meteredCredit meteredFailure meteredHeader meteredServes month-adjoins month-days month-holds month-in-year
month-least month-low month-most month-stays month-turns monthAfter monthFigures monthIndex monthLength
monthLine monthOf monthlyCharge months-adjoin months-fill months-in-order next-day non-demand-low
nonDemandCharge none-or-both none-some noneIn notTaken nothing-before noticeOf noticesOf number-back numbered-in
numberedDay of-day one-day only-January opens-first opensMonth ordered-by orderlyIn peakIn peakOf per-half-kwh
per-kw-day periodIn periodOf piecesIn pricedOf progressOf quotedBy range-on reached-all reached-inside
reached-more reached-near reached-none read-stops real-dates releasedAfter reportOf room-left same-date
scheduleAt scheduleIn scheduleOf season-holds season-numbers seasonFirst seasonIndex seasonLast seasonOf
seasons-in-order second-fails sheetAnswer sheetOf standby-bounded standby-falls standbyCredit standbyFailure
standbyHeader standbyServes summer-days summer-first summer-holds summer-last summer-none summer-spans
summer-unnumbered supplementary-low supply-low supplyCharge take-few take-under termsOf to-2099 to-2100
to-December total-both total-fewer total-grows total-last total-low total-more total-on total-parts total-under
usage-low usageCharge wayBy weight-low window-low windowFor winter-days winter-first winter-holds winter-last
winter-no-first winter-no-last winter-unbegun winter-unended with-peak withDay withinRange workedAnswer workedOf
wrong-day year-adjoins year-least year-most yearLength
""".split()

# what port.py turned in the crates, for the pages: it reads none
PORTED = """
answerOf classOf codeOf creditAt endIn endOf firstOf inBlock indexAt kindOf lengthAt lengthOf numberOf orElse pairOf
placeOf planOf readOn rowsOf wayOf withCode
""".split()

TOKEN = re.compile(r"[A-Za-z_][A-Za-z0-9_'\-]*")
STRING = re.compile(r'("(?:[^"\\]|\\.)*")')


def snake(name):
    name = re.sub(r"([a-z0-9])-?([A-Z])", lambda m: m.group(1) + "_" + m.group(2).lower(), name)
    return name.replace("-", "_")


TURNED = {n: APART.get(n, snake(n)) for n in NAMES}
PLAIN = {n: t for n, t in TURNED.items() if "-" not in n and n not in APART}
PAGES = {n: snake(n) for n in PORTED} | PLAIN


def by(table, text):
    return TOKEN.sub(lambda m: table.get(m.group(0), m.group(0)), text)


def antt(line):
    code, dashes, comment = line.partition("-- ") if line.lstrip().startswith("-- ") else (line, "", "")
    return by(TURNED, code) + dashes + by(PLAIN, comment)


def rust(line):
    table = PLAIN if line.lstrip().startswith("//") else TURNED
    return "".join(part if i % 2 else by(table, part) for i, part in enumerate(STRING.split(line)))


def page(line):
    return re.sub(r"`[^`]*`", lambda m: by(PAGES, m.group(0)), line)


def turn(path, how):
    with open(path, encoding="utf-8") as f:
        old = f.read()
    new = "".join(how(line) for line in old.splitlines(keepends=True))
    if new != old:
        with open(path, "w", encoding="utf-8") as f:
            f.write(new)
        print(path)


def main():
    for folder, dirs, files in os.walk("crates"):
        dirs[:] = sorted(d for d in dirs if d not in ("out", "must-fail"))
        for name in sorted(files):
            how = antt if name.endswith(".antt") else rust if name.endswith(".rt") else None
            if how:
                turn(os.path.join(folder, name), how)
    for name in ["README.md"] + sorted(os.path.join("docs", f) for f in os.listdir("docs") if f.endswith(".md") and not f.startswith("PORT")):
        turn(name, page)


main()
