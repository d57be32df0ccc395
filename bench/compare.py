#!/usr/bin/env python3
"""Compares a built columnstore with sqlite3 in memory: the same loads and queries in both, and the same answers, or status 1.

usage: bench/compare.py PROGRAM [--rows N] [--repeat R] [--only WORD]
    N rows (1,048,576), queries repeated R times (10), of all cases or of those with that word in the name

A query's time is the R-th part of what a run with R repeats more takes longer, a load's that of a run with it against one
without, each the least of five runs; a query that takes a few milliseconds is repeated 30 R times. Times are processor time of the whole
process, printing included, in milliseconds; sqlite3 has a process of its own, and its times are those of its statements, rows fetched, a
second of them at most. Memory is the greatest resident size, below some 30 MB this script's own; bytes are 8 x words of the segment
report, and sqlite3's pages. A ratio is of two times of one run; times of other runs compare with nothing.

The first table has all cases beside sqlite3, with the sum of the times of a case's queries. Its column "Of one group" is a time as a part of
that over the plain case, one packed group with no row deleted, where both ask the same; of the case of a quarter of the rows it has the
growth, how often its time goes into that of the plain case. The second table has queries beside themselves: by four workers and by one, by
the clock, with what four plain loops at once take beside one, and over a column in runs and not in runs."""
import argparse
import datetime
import json
import os
import re
import sqlite3
import subprocess
import sys
import tempfile
import time
from collections import namedtuple
from importlib.machinery import SourceFileLoader
from importlib.util import module_from_spec, spec_from_loader

sys.dont_write_bytecode = True
HERE = os.path.dirname(os.path.realpath(__file__))
loader = SourceFileLoader("load", f"{HERE}/load")
load = module_from_spec(spec_from_loader("load", loader))
loader.exec_module(load)
run = load.run

ROUNDS = 5
MORE = 30
LOOP = "for _ in range(30_000_000): pass"
SEGMENTS = "s1 SELECT * FROM sys.column_store_segments"
NUMBERS = "CREATE TABLE t (k bigint NOT NULL PRIMARY KEY, v int, w int)"
MIXED = "CREATE TABLE t (k bigint NOT NULL PRIMARY KEY, p decimal(9,2), d date, s varchar(20))"
WORDS = "the of and to in is was he for it with as his on be at by had are but from or have an they which one were all her".split()

# A query: its name and its text, where it differs sqlite3's, and how often a repeat is done: a fast one MORE times. A text with {i} is
# another one each time. `places` are the places of dates and decimals among its items: "d", or the digits after the point.
Query = namedtuple("Query", "name ours theirs times places session", defaults=(None, 1, {}, "s1"))
# A case: its setup, the lines of its script after it, the statements of sqlite3, the options, what the log has to have, its queries.
Case = namedtuple("Case", "name rows setup lines theirs words says queries")


def case(name, rows, load, queries, lines=(), groups=1, says=()):
    """A case over the table of numbers, in so many packed groups. The lines after its load only the columnstore has."""
    words = ("--group-rows", str(max(2, rows // groups)), "--direct-rows", str(min(rows // groups, 102_400)))
    return Case(name, rows, NUMBERS, [*(f"s1 {text}" for text in load), *lines], load, words, says, queries)


# ---- the columnstore


def replay(program, words, script, out):
    for path, number, flags in ((script, 0, os.O_RDONLY), (out, 1, os.O_WRONLY | os.O_CREAT | os.O_TRUNC)):
        os.dup2(os.open(path, flags), number)
    os.execv(program, [program, "replay", *words])


# What runs took: the least seconds of the processors and by the clock, the most megabytes, and the replies with their rows.
Took = namedtuple("Took", "seconds clock room replies")


def runs(program, given, lines, folder):
    """Runs of the program over these lines."""
    script, out = f"{folder}/script", f"{folder}/out"
    with open(script, "w") as file:
        file.writelines(line + "\n" for line in (f"setup {given.setup}", *lines))
    used = [timed(replay, program, given.words, script, out) for _ in range(ROUNDS)]
    with open(out) as file:
        log = file.read()
    wrong = re.search(r"^\d+ \S+ < error.*|^\d+ m\d+ memory.*", log, re.MULTILINE)
    if wrong:
        sys.exit(f"compare: {given.name}: the log has {wrong[0]!r}")
    replies = re.findall(r"^\d+ s\d+\.\d+ < ok ?(.*)\n((?:  .*\n)*)", log, re.MULTILINE)
    missing = [text for text in given.says if text not in log]
    if missing:
        sys.exit(f"compare: {given.name}: the log has no {missing[0]!r}")
    return Took(*(min(one[n] for one in used) for n in (0, 1)), max(one[2] for one in used), replies)


def timed(work, *given):
    """The seconds of a process of its own, of the processors and by the clock, and its megabytes."""
    start = time.monotonic()
    seconds, room = run.measured(work, *given)
    return seconds, time.monotonic() - start, room


def answer_of(reply):
    """The rows of a reply as printed, or the number of rows that it has changed."""
    head, rows = reply
    return [row[2:] for row in rows.splitlines()] if head.endswith("rows") else [head]


def asked_once(given):
    return [f"{query.session} {query.ours.format(i=1)}" for query in given.queries]


def times_of(program, given, repeat, folder, once, kind):
    """The time of each query, of the processors or by the clock, where each has been asked `once`."""
    for query in given.queries:
        number = repeat * query.times
        more = [f"{query.session} {query.ours.format(i=i)}" for i in range(2, number + 2)]
        took = runs(program, given, [*given.lines, *asked_once(given), *more], folder)
        yield (getattr(took, kind) - getattr(once, kind)) / number


def of_columnstore(program, given, repeat, folder):
    """Time of the load, memory, bytes, and the answer and the time of each query."""
    asked = asked_once(given)
    loaded = runs(program, given, given.lines, folder).seconds
    once = runs(program, given, [*given.lines, *asked], folder)
    answers = [answer_of(reply) for reply in once.replies[len(once.replies) - len(asked) :]]
    times = list(times_of(program, given, repeat, folder, once, "seconds"))
    empty = runs(program, given._replace(says=()), [], folder).seconds
    report = answer_of(("rows", runs(program, given, [*given.lines, SEGMENTS], folder).replies[-1][1]))
    return loaded - empty, once.room, 8 * sum(int(line.split(", ")[5]) for line in report), answers, times


# ---- sqlite3


def shown(cell, place):
    if cell is None:
        return "NULL"
    if isinstance(cell, str):
        return cell if place == "d" else "'" + cell.replace("'", "''") + "'"
    if place:
        return f"{'-' * (cell < 0)}{abs(cell) // 10**place}.{abs(cell) % 10**place:0{place}}"
    return str(cell)


def asked_of(table, query, i):
    found = table.execute((query.theirs or query.ours).format(i=i))
    rows = found.fetchall()
    if not found.description:
        return [f"{found.rowcount} affected"]
    return [", ".join(shown(cell, query.places.get(place)) for place, cell in enumerate(row)) for row in rows]


def sqlite_work(given, repeat, out):
    table = sqlite3.connect(":memory:", isolation_level=None)
    table.execute("PRAGMA case_sensitive_like = ON")
    table.execute(given.setup.replace("bigint NOT NULL PRIMARY KEY", "INTEGER PRIMARY KEY"))
    start = time.process_time()
    for text in given.theirs:
        table.execute(run.of_sqlite(text))
    loaded = time.process_time() - start
    (pages,), (size,) = table.execute("PRAGMA page_count").fetchone(), table.execute("PRAGMA page_size").fetchone()
    answers, times = [asked_of(table, query, 1) for query in given.queries], []
    for query in given.queries:
        number, rounds, i = repeat * query.times, [], 1
        for _ in range(ROUNDS):
            start, before = time.process_time(), i
            while i - before < number and time.process_time() - start < 1:
                i += 1
                asked_of(table, query, i)
            rounds.append((time.process_time() - start) / (i - before))
        times.append(min(rounds))
    with open(out, "w") as file:
        json.dump([loaded, pages * size, answers, times], file)


def of_sqlite(given, repeat, folder):
    room = run.measured(sqlite_work, given, repeat, f"{folder}/theirs")[1]
    with open(f"{folder}/theirs") as file:
        loaded, size, answers, times = json.load(file)
    return loaded, room, size, answers, times


# ---- the cases


def series(rows, key="value"):
    return [f"INSERT INTO t SELECT {key}, value % 10, value * 7 % 1000 FROM GENERATE_SERIES(1, {rows})"]


def six(rows):
    """Six queries, each fast."""
    low = rows // 2
    queries = {
        "COUNT, SUM(v)": "SELECT COUNT(*), SUM(v) FROM t",
        "COUNT, SUM(w) WHERE v = 3": "SELECT COUNT(*), SUM(w) FROM t WHERE v = 3",
        "the same, k BETWEEN (an eighth)": f"SELECT COUNT(*), SUM(w) FROM t WHERE k BETWEEN {low} AND {low + rows // 8}",
        "v, COUNT, SUM(w) GROUP BY v": "SELECT v, COUNT(*), SUM(w) FROM t GROUP BY v",
        "COUNT WHERE v IN (..) OR w < 100": "SELECT COUNT(*) FROM t WHERE v IN (1, 3, 5) OR w < 100",
        "w, COUNT, MAX(k) GROUP BY w": "SELECT w, COUNT(*), MAX(k) FROM t GROUP BY w",
    }
    return [Query(name, text, times=MORE) for name, text in queries.items()]


def mixed_cells(i):
    """Hundredths, a day and a text of the row of key i, each NULL in some rows."""
    day = datetime.date(2020, 1, 1) + datetime.timedelta(days=i * 31 % 2000)
    return (
        None if i % 11 == 0 else i * 7919 % 100_000,
        None if i % 13 == 0 else f"'{day}'",
        None if i % 17 == 0 else f"'{WORDS[i * 7 % len(WORDS)]}{i % 100}'",
    )


def mixed_load(rows, hundredths):
    """INSERTs of a thousand rows each in one transaction; decimals as they are printed, or as hundredths."""
    yield "BEGIN TRAN"
    for first in range(1, rows + 1, 1000):
        cells = ((i, *mixed_cells(i)) for i in range(first, min(first + 1000, rows + 1)))
        rows_of = (f"({i}, {p if p is None or hundredths else shown(p, 2)}, {d}, {s})".replace("None", "NULL") for i, p, d, s in cells)
        yield "INSERT INTO t VALUES " + ", ".join(rows_of)
    yield "COMMIT"


def mixed(rows):
    some = ", ".join([f"'{word}{n}'" for word in WORDS for n in range(0, 100, 3)][:1000])
    queries = [
        Query("COUNT, SUM of decimals WHERE p >= 500.00", "SELECT COUNT(*), SUM(p) FROM t WHERE p >= 500.00", "SELECT COUNT(*), SUM(p) FROM t WHERE p >= 50000", 1, {1: 2}),
        Query("COUNT, MIN, MAX of dates in a quarter", "SELECT COUNT(*), MIN(d), MAX(d) FROM t WHERE d BETWEEN '2021-01-01' AND '2021-03-31'", None, 1, {1: "d", 2: "d"}),
        Query("text, COUNT, SUM GROUP BY text", "SELECT s, COUNT(*), SUM(p) FROM t GROUP BY s", None, 1, {2: 2}),
        Query("COUNT WHERE text LIKE '%e7%'", "SELECT COUNT(*) FROM t WHERE s LIKE '%e7%'"),
        Query("COUNT WHERE text IN (1,000 texts)", f"SELECT COUNT(*) FROM t WHERE s IN ({some})"),
        Query("COUNT WHERE p IS NULL OR d IS NULL", "SELECT COUNT(*) FROM t WHERE p IS NULL OR d IS NULL"),
    ]
    return case("decimals, dates, texts with NULLs", rows, list(mixed_load(rows, False)), queries)._replace(setup=MIXED, theirs=list(mixed_load(rows, True)))


def states(rows):
    """One group with a hundredth of its rows deleted: in the buffer, flushed, settled; and with a snapshot from before."""
    load, gone = series(rows), "DELETE FROM t WHERE w < 10"
    for name, turns, says in (("in the buffer", 0, ()), ("flushed", 1, ("install flush",)), ("settled", 2, ("install flush", "m1 settle"))):
        yield case(f"1 % deleted, {name}", rows, [*load, gone], six(rows), lines=["m1"] * turns, says=says)
    held = [*(f"s1 {text}" for text in load), "s2 BEGIN TRAN", "s2 SELECT COUNT(*) FROM t", f"s1 {gone}", "m1"]
    old = [query._replace(session="s2") for query in six(rows)]
    yield case("an old snapshot, 1 % deleted since and flushed", rows, load, old, says=("install flush",))._replace(lines=held)


def cases(rows):
    spread = ", ".join(str(n) for n in range(0, 2000, 2))
    yield case("one packed group", rows, series(rows), six(rows))
    yield case("a quarter of the rows", rows // 4, series(rows // 4), six(rows // 4))
    yield case("IN of 1,000", rows, series(rows), [Query("COUNT WHERE w IN (1,000 numbers)", f"SELECT COUNT(*) FROM t WHERE w IN ({spread})")])
    yield case("8 groups", rows // 8 * 8, series(rows // 8 * 8), six(rows // 8 * 8), groups=8)
    yield from states(rows)
    yield case("10,000 own writes", rows, [*series(rows), "BEGIN TRAN", f"UPDATE t SET w = w + 1 WHERE k <= {min(rows, 10_000)}"], six(rows))
    yield mixed(max(1, rows // 5000) * 1000)
    yield case("groups of one row, and by two columns", rows, series(rows), [
        Query("k, COUNT GROUP BY k", "SELECT k, COUNT(*) FROM t GROUP BY k"),
        Query("v, w, COUNT, SUM(k) GROUP BY v, w", "SELECT v, w, COUNT(*), SUM(k) FROM t GROUP BY v, w"),
    ])
    yield case("keys in no order", rows, series(rows, f"value * {run.PRIME} % {rows}"), six(rows))
    yield case("by key, and 1 % of the rows", rows, series(rows), [
        Query("SELECT by key", f"SELECT v, w FROM t WHERE k = {rows // 3}", times=100),
        Query("UPDATE of 1 %", "UPDATE t SET v = v + 1 WHERE w < 10"),
        Query("DELETE by key", "DELETE FROM t WHERE k = {i}", times=10),
    ])


# ---- queries beside themselves


def loops(number):
    """The seconds by the clock of so many plain loops at once, each in a process of its own: what the machine's processors give beside each other."""

    def once():
        start = time.monotonic()
        for loop in [subprocess.Popen([sys.executable, "-c", LOOP]) for _ in range(number)]:
            loop.wait()
        return time.monotonic() - start

    return min(once() for _ in range(ROUNDS))


def by_workers(program, rows, repeat, folder):
    """Queries over 8 groups by four workers, and by one, by the clock."""
    queries = [
        *six(rows),
        Query("v, COUNT, SUM(k) WHERE w < 500 GROUP BY v", "SELECT v, COUNT(*), SUM(k) FROM t WHERE w < 500 GROUP BY v", times=MORE),
        Query("v, w, COUNT, SUM(k) GROUP BY v, w", "SELECT v, w, COUNT(*), SUM(k) FROM t GROUP BY v, w", times=MORE),
    ]
    given, times, answers = case("", rows, series(rows), queries, groups=8), [], []
    for number in ("4", "1"):
        had = given._replace(words=(*given.words, "--workers", number))
        once = runs(program, had, [*had.lines, *asked_once(had)], folder)
        answers.append(once.replies)
        times.append(times_of(program, had, repeat, folder, once, "clock"))
    if answers[0] != answers[1]:
        sys.exit("compare: four workers answer otherwise than one")
    for query, four, one in zip(queries, *times):
        yield f"{query.name}, over 8 groups, four workers, by the clock", four, "one worker", one
    yield "four plain loops at once, by the clock", loops(4), "one loop", loops(1)


def by_runs(program, rows, repeat, folder):
    """A GROUP BY over w, whose cells stand in runs where v has ten values, and in none where v has 999: rows stand by v first."""
    queries = [
        Query("w, COUNT GROUP BY w", "SELECT w, COUNT(*) FROM t GROUP BY w", times=MORE),
        Query("w, COUNT, SUM(v) GROUP BY w", "SELECT w, COUNT(*), SUM(v) FROM t GROUP BY w", times=MORE),
    ]
    times = []
    for values in (10, 999):
        load = [f"INSERT INTO t SELECT value, value % {values}, value * 7 % 1000 FROM GENERATE_SERIES(1, {rows})"]
        given = case("", rows, load, queries)
        once = runs(program, given, [*given.lines, *asked_once(given)], folder)
        times.append(times_of(program, given, repeat, folder, once, "seconds"))
    for query, fast, slow in zip(queries, *times):
        yield f"{query.name}, w in runs", fast, "w not in runs", slow


# ---- all of it


def table(*cells):
    print("| " + " | ".join(cells) + " |", flush=True)


def compared(program, given, repeat, folder, plain):
    """Prints the lines of a case. The times of the plain case are kept in `plain`, by query."""
    loaded, room, size, answers, times = of_columnstore(program, given, repeat, folder)
    other_loaded, other_room, other_size, wanted, other_times = of_sqlite(given, repeat, folder)
    for query, ours, theirs in zip(given.queries, answers, wanted):
        if "ORDER BY" not in query.ours:
            ours, theirs = sorted(ours), sorted(theirs)
        if ours != theirs:
            differ = next(((a, b) for a, b in zip(ours, theirs) if a != b), (len(ours), len(theirs)))
            sys.exit(f"compare: {given.name}: {query.name}: two answers: {differ[0]!r}, and sqlite3 {differ[1]!r}")
    names = [query.name for query in given.queries]
    lines = [("its load", loaded, other_loaded), *zip(names, times, other_times), (", ".join(names), sum(times), sum(other_times))]
    for name, ours, theirs in lines:
        if given.name.startswith("one packed"):
            plain[name] = ours
        of_plain = f"{ours / plain[name]:.2f}" if plain.get(name, 0) > 0 and ours > 0 else ""
        grown = f"growth {plain[name] / ours:.1f}" if of_plain and given.name.startswith("a quarter") else of_plain
        shown_name = name if name in ("its load", *names) else f"these {len(names)} queries"
        table(given.name, f"{given.rows:,}", shown_name, f"{ours * 1000:.3f}", f"{theirs * 1000:.3f}", f"{ours / theirs:.3g}" if theirs > 0 else "", grown)
    table(given.name, f"{given.rows:,}", f"memory {room:.0f} MB, sqlite3 {other_room:.0f} MB; {size:,} bytes, sqlite3 {other_size:,}", "", "", f"{size / other_size:.3g}", "")


def loads(program, statements, folder):
    """The workload of the program itself, beside sqlite3 with its statements, as bench/load times them."""
    words, made, out = ["--statements", str(statements)], f"{folder}/made", f"{folder}/out"
    run.measured(load.run_columnstore, [program, "generate", *words], made)
    ours, room = min(run.measured(load.run_columnstore, [program, "load", *words], out) for _ in range(ROUNDS))
    theirs, _ = min(run.measured(load.run_sqlite, made, out) for _ in range(ROUNDS))
    table(f"load --statements {statements}", "", f"memory {room:.0f} MB", f"{ours * 1000:.0f}", f"{theirs * 1000:.0f}", f"{ours / theirs:.3g}", "")


def main():
    words = argparse.ArgumentParser(usage=__doc__)
    words.add_argument("program")
    words.add_argument("--rows", type=int, default=1_048_576)
    words.add_argument("--repeat", type=int, default=10)
    words.add_argument("--only", default="")
    given = words.parse_args()
    program = os.path.realpath(given.program)
    if not os.access(program, os.X_OK):
        sys.exit("compare: the program is not built; ./columnstore builds it")
    if given.rows < 1000 or given.repeat < 1:
        sys.exit("compare: from 1,000 rows and one repeat on")
    table("Case", "Rows", "Query", "columnstore, ms", "sqlite3, ms", "Ratio", "Of one group")
    table(*["---"] * 7)
    plain = {}
    with tempfile.TemporaryDirectory() as folder:
        for each in cases(given.rows):
            if given.only in each.name:
                compared(program, each, given.repeat, folder, plain)
        if given.only in "load":
            loads(program, given.rows * 200_000 // 1_048_576, folder)
        print()
        table("Query", "ms", "Of what", "ms", "Ratio")
        table(*["---"] * 5)
        for name, rule in (("workers", by_workers), ("runs", by_runs)):
            for what, ours, of, other in rule(program, given.rows // 8 * 8, given.repeat, folder) if given.only in name else ():
                table(what, f"{ours * 1000:.3f}", of, f"{other * 1000:.3f}", f"{ours / other:.2f}" if other > 0 else "")


if __name__ == "__main__":
    main()
