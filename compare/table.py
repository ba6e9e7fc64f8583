"""The table of all rows in docs/PERFORMANCE_TABLE.md: columns are written by name, and rows that it lacks are added.
Rows that take more time than the crate's get a reason; gate/page_numbers names those that need one by hand.

    compare/table.py --write ORDER TIMES
    compare/table.py --add ORDER TIMES

ORDER is a file with what `compare rows` prints, the rows in their order, and TIMES one with what `compare table` prints.
With --write the times replace those of the table. With --add they are of a run on another day or machine: where it
differs from the table's by more than a tenth, the cell becomes the range of both.
"""

import pathlib
import re
import sys

TABLE = pathlib.Path(__file__).resolve().parent.parent / "docs/PERFORMANCE_TABLE.md"
COLUMNS = [
    "Call",
    "Input",
    "proved, ns",
    "crate, ns",
    "ratio",
    "standard library, ns",
    "instructions",
    "the crate's",
    "their ratio",
    "x86-64-v3",
    "that ratio",
    "why above 1.00",
]

WHY = COLUMNS[-1]

# The section of PERFORMANCE on why rows of a call take more time than the crate's, by the first word of the call.
REASONS = {
    "eq": "vectors",
    "cmp": "vectors",
    "as_str": "a surrogate at the front",
    "to_string_lossy": "a surrogate at the front",
    "clone": "allocation",
    "sort": "sorts and maps",
    "BTreeMap": "sorts and maps",
    "write_units": "short copies",
    "IndexedBuf": "short copies",
    "unit_at": "short copies",
}


def cells_of(line):
    return [cell.strip() for cell in line.strip().removeprefix("|").removesuffix("|").split("|")]


def row_of(line):
    return dict(zip(COLUMNS, cells_of(line)))


def line_of(row):
    return "| " + " | ".join(row.get(column, "") for column in COLUMNS) + " |"


def name_of(row):
    return f"{row['Call']}\t{row['Input']}"


def ends_of(cell):
    """Returns the least and the greatest number of a cell: a number, or a range of two."""
    low, _, high = cell.partition("–")
    return float(low), float(high or low)


def with_run(cell, other):
    """Returns the range of a cell and the number of another run, or the cell if that differs by at most a tenth."""
    if not cell or not other:
        return cell or other
    low, _, high = cell.partition("–")
    least, greatest = min(low, other, key=float), max(high or low, other, key=float)
    return f"{least}–{greatest}" if float(greatest) > 1.1 * float(least) else cell


def reason(row):
    """Returns why a row takes more time than the crate's: what the row says already, else the reason for its call, else
    that it is not known if it takes no more instructions."""
    if ends_of(row["ratio"])[1] <= 1:
        return ""
    title = REASONS.get(re.split("[ ,]", row["Call"])[0])
    if title is None and float(row.get("their ratio") or 0) <= 1:
        title = "not known"
    found = f"[{title}](PERFORMANCE.md#{title.replace(' ', '-')})" if title else ""
    return row.get(WHY) or found


def parts():
    """Returns the page before the table, and the table's rows by their names."""
    before, title, rest = TABLE.read_text(encoding="utf-8").partition("\n## All rows\n\n")
    return before + title, {name_of(row): row for row in map(row_of, rest.splitlines()[2:])}


def write(order, found):
    """Writes columns of rows. `order` has the names of all rows, and `found` maps some of them to their columns."""
    before, rows = parts()
    for name, columns in found.items():
        call, _, given = name.partition("\t")
        rows.setdefault(name, {"Call": call, "Input": given}).update(columns)
    for row in rows.values():
        row[WHY] = reason(row)
    lines = ["| " + " | ".join(COLUMNS) + " |", "|---" * len(COLUMNS) + "|"]
    lines += [line_of(rows[name]) for name in order if name in rows]
    TABLE.write_text(before + "\n".join(lines) + "\n", encoding="utf-8")


def main():
    mode, *files = sys.argv[1:]
    order_file, times_file = map(pathlib.Path, files)
    order = [line.rpartition("\t")[0] for line in order_file.read_text(encoding="utf-8").splitlines()]
    lines = times_file.read_text(encoding="utf-8").splitlines()
    rows = [row_of(line) for line in lines[lines.index("All rows:") + 4 :]]
    _, known = parts()
    found = {}
    for row in rows:
        before = known.get(name_of(row), {}) if mode == "--add" else {}
        found[name_of(row)] = {column: with_run(before.get(column, ""), row[column]) for column in COLUMNS[2:6]}
    write(order, found)


if __name__ == "__main__":
    main()
