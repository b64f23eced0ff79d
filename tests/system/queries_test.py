"""Queries of the whole language: what an independent program answers (tests/vectors), through `ask`."""

from concurrent.futures import ThreadPoolExecutor

from lines_rows_test import rows, set_file
from runs import PROGRAM, Outcome, Tally, run


def asked(row):
    name, query, _ = row
    with set_file(name).open("rb") as stdin:
        return row, run([PROGRAM, "ask", query], stdin)


def main():
    tally = Tally()
    with ThreadPoolExecutor() as workers:
        for (name, query, answer), outcome in workers.map(asked, rows("meanings.tsv")):
            tally.check(f"{name} {query}", outcome == Outcome(answer, b"", 0), outcome)
    tally.end()


if __name__ == "__main__":
    main()
