#!/usr/bin/env python3
"""Writes the cases of `crates/array_cases`: its `stdin`, and as `stdout` what the calls on columns have to answer.

The answers come from the model in `arrays_model.py`. The worked rows of `arrays.txt` have answers by hand; the model has to
give the same. `README.md` says how to make the files anew."""

import os
import random
import sys

from arrays_model import BOUNDS, SIGNS, UNSIGNED, WIDTHS, answer, ends, is_in_range

HERE = os.path.dirname(os.path.abspath(__file__))
CRATE = os.path.join(HERE, "..", "..", "crates", "array_cases")

# Made cases. Each kind of column has eleven rows, which come again: eleven and the 64 bits of a word have no common part, so
# a row in a wrong place is another row.

LENGTHS = [0, 1, 63, 64, 65, 128, 130]
MARKS = ["", "+", "!", "?"]
DECIMALS = ["decimal(3,2)/8", "decimal(5,0)/16", "decimal(9,9)/32", "decimal(10,2)/64", "decimal(38,-1)/128"]


def number_rows(least, greatest):
    middle = [0, 1, 7, 100, 2, 7, 50] if least == 0 else [0, -7, 7, 100, -2, 7, -50]
    return [str(n) for n in [middle[0], least, middle[1], middle[2], greatest, middle[3], middle[4], middle[5], least + 1, greatest - 1, middle[6]]]


ROWS = {"bool": list("10110010110")}
for _width in WIDTHS:
    ROWS[_width] = number_rows(*ends(_width))
for _name in DECIMALS:
    ROWS[_name] = number_rows(*ends("i" + _name.split("/")[1]))
ROWS["utf8"] = ["''", "a", "bb", "Z", "\u00e9", "ccc", "a%b", "zz", "bb", "\U00010348", "abcdefghijklmnopqrst"]
ROWS["binary"] = ["''", "00", "ff", "00ff", "7f", "80", "''", "0000", "deadbeef", "7f80", "000102030405060708090a0b0c0d0e0f"]
KINDS = list(ROWS)
# Rows of few letters, of which long columns are made.
SHORT = {kind: [str(n) for n in [0, 3, 7, 2, 9, 1, 5, 8, 2, 4, 6]] for kind in KINDS}
SHORT["bool"] = ROWS["bool"]
SHORT["utf8"] = ["''", "a", "bb", "Z", "\u00e9", "c", "d", "z", "bb", "A", "B"]
SHORT["binary"] = ["''", "00", "ff", "00ff", "7f", "80", "''", "01", "de", "ad", "80"]
# A kind for each type: the numbers of decimals of a constant column have no width.
TYPES = [kind for kind in KINDS if kind[:7] != "decimal" or kind.endswith("/64")]
# Kinds that stand for the others where cases of each kind would be too many.
SOME = ["bool", "i64", "decimal(10,2)/64", "utf8", "binary"]


def type_of(kind, nullable=False):
    return kind.split("/")[0] + ("?" if nullable else "")


def held(kind, mark, rows):
    """Rows as words of a column: in `?` the second of each three is null, in a place that holds it."""
    if mark == "?":
        rows = ["~" + row if i % 3 == 1 else row for i, row in enumerate(rows)]
    return kind + mark + ":" + ",".join(rows)


def sample(kind, mark, count, turn=0):
    rows = ROWS[kind] if count < 12 else SHORT[kind]
    rows = rows[turn:] + rows[:turn]
    if count == 0:
        return kind + mark + ":"
    if count < len(rows):
        return held(kind, mark, rows[:count])
    return held(kind, mark, rows) + "@%d" % count


def equal(kind, count, place, nullable=False):
    row = "-" if place is None else ROWS[kind][place]
    return "%s*%d:%s" % (type_of(kind, nullable or place is None), count, row)


class Cases:
    """The cases so far, each once."""

    def __init__(self):
        self.lines = []
        self.seen = set()

    def add(self, *words):
        case = " ".join(str(word) for word in words)
        if case not in self.seen:
            self.seen.add(case)
            self.lines.append(case)


def turning(items):
    """The items again and again."""
    while True:
        yield from items


def whole_parts(cases, column, count):
    for start, end in [(0, count), (count // 3, count), (count // 2, count // 2), (count // 7, count // 2)]:
        cases.add("slice", column, start, end)
    for mask in ["all", "none", "101@%d" % count if count else ""]:
        cases.add("filter", column, mask)


def add_parts(cases):
    for kind in SOME:
        for mark in MARKS:
            for count in LENGTHS:
                whole_parts(cases, sample(kind, mark, count), count)
    for count in LENGTHS:
        whole_parts(cases, "i32?*%d:9" % count, count)
        whole_parts(cases, "i32?*%d:-" % count, count)
    masks = turning(["101", "0", "1", "01", "00010", "1110"])
    for kind in KINDS:
        for mark in MARKS:
            column = sample(kind, mark, 65)
            cases.add("slice", column, 13, 64)
            cases.add("filter", column, "%s@65" % next(masks))
            cases.add("filter", sample(kind, mark, 11), "%s@11" % next(masks))
    for kind in TYPES:
        for place in [1, None]:
            cases.add("slice", equal(kind, 65, place), 3, 64)
            cases.add("filter", equal(kind, 65, place), "10@65")


def indices(width, mark, places):
    return held(width, mark, [str(place) for place in places])


def add_taken(cases):
    places = [7, 0, 3, 7, 6]
    wholes = [sample(kind, mark, 8) for kind in SOME for mark in MARKS] + ["i32?*8:9", "i32?*8:-"]
    for whole in wholes:
        for width in UNSIGNED:
            for mark in MARKS:
                # A null index holds a number that names no row.
                at = [100 if mark == "!" or mark == "?" and i % 3 == 1 else place for i, place in enumerate(places)]
                cases.add("take", whole, indices(width, mark, at))
        for index in ["u32?*2:7", "u32?*2:-", "u8*3:0", "u64*0:9", "u16?*0:-"]:
            cases.add("take", whole, index)
    widths, marks = turning(UNSIGNED), turning(["", "?", "+", "!", ""])
    for kind in KINDS:
        for mark in MARKS:
            cases.add("take", sample(kind, mark, 65), indices(next(widths), next(marks), [64, 0, 63, 64, 1, 33]))
        cases.add("names_rows", sample(kind, "", 1), 10)
        cases.add("names_rows", sample(kind, "!", 1), 10)
        cases.add("take", "u8:1,2,3", sample(kind, "", 1))
    for kind in TYPES:
        for place in [1, None]:
            for mark in MARKS:
                cases.add("take", equal(kind, 65, place), indices(next(widths), mark, [64, 0, 3]))
    for width in UNSIGNED:
        for mark in MARKS:
            for rows in [0, 3, 4]:
                cases.add("names_rows", indices(width, mark, [3, 1, 0]), rows)
    cases.add("take", sample("i64", "?", 130), "u8?:129,~130,0@130")


def read(cases, column, count, kind):
    for call in ["try_clone", "into_nullable", "validity_mask", "min_max", "orders"]:
        cases.add(call, column)
    for place in [0, count - 1]:
        if count:
            cases.add("scalar_at", column, place)
    cases.add("fill_null", column, type_of(kind) + "=" + ROWS[kind][3])


def add_reads(cases):
    for kind in KINDS:
        for mark in MARKS:
            column = sample(kind, mark, 3)
            read(cases, column, 3, kind)
            cases.add("kept", column)
            cases.add("value_at", column, 1)
            cases.add("is_valid", column, 1)
            cases.add("fill_null", column, type_of(kind, True) + "=" + ROWS[kind][2])
        for mark in ["?", "+"]:
            cases.add("try_clone", sample(kind, mark, 65))
            cases.add("fill_null", sample(kind, mark, 65), type_of(kind) + "=" + ROWS[kind][3])
            cases.add("min_max", sample(kind, mark, 11))
            cases.add("min_max", sample(kind, mark, 65))
        cases.add("len", sample(kind, "?", 130))
        cases.add("dtype", sample(kind, "?", 3))
        cases.add("dtype", sample(kind, "", 3))
    for kind in TYPES:
        for place in [2, None]:
            for count in [0, 2]:
                read(cases, equal(kind, count, place), count, kind)
            cases.add("kept", equal(kind, 2, place))
            cases.add("is_valid", equal(kind, 2, place), 1)
            cases.add("fill_null", equal(kind, 65, place), type_of(kind, True) + "=" + ROWS[kind][3])
    for kind in SOME:
        for mark in MARKS:
            read(cases, sample(kind, mark, 0), 0, kind)
            for count in LENGTHS[1:]:
                cases.add("validity_mask", sample(kind, mark, count))


def add_comparisons(cases):
    marks, signs, places = turning(MARKS), turning(SIGNS), turning([2, 3, 1])
    for kind in KINDS:
        for mark in MARKS:
            for sign in SIGNS:
                cases.add("compare", sample(kind, mark, 7), sign, sample(kind, next(marks), 7, 1))
            next(marks)
            cases.add("compare", sample(kind, mark, 65), next(signs), sample(kind, next(marks), 65, 3))
            cases.add("compare", sample(kind, mark, 5), next(signs), equal(kind, 5, next(places)))
            cases.add("compare", sample(kind, mark, 5), next(signs), equal(kind, 5, None))
            cases.add("compare", equal(kind, 5, next(places)), next(signs), sample(kind, mark, 5))
            cases.add("compare", equal(kind, 5, None), next(signs), sample(kind, mark, 5))
        for sign in SIGNS:
            cases.add("compare", sample(kind, next(marks), 5), sign, equal(kind, 5, next(places)))
            cases.add("compare", equal(kind, 5, next(places), True), sign, sample(kind, next(marks), 5))
        cases.add("compare", sample(kind, "?", 130), next(signs), equal(kind, 130, 3))
        cases.add("compare", equal(kind, 130, 3), next(signs), sample(kind, "?", 130))
        cases.add("compare", equal(kind, 0, None), next(signs), sample(kind, "", 0))
        cases.add("compare", sample(kind, next(marks), 0), next(signs), sample(kind, next(marks), 0))
    for kind in TYPES:
        for sign in SIGNS:
            cases.add("compare", equal(kind, 3, 3), sign, equal(kind, 3, 2, True))
        cases.add("compare", equal(kind, 3, 3), next(signs), equal(kind, 3, 3))
        cases.add("compare", equal(kind, 3, None), next(signs), equal(kind, 3, 2))
        cases.add("compare", equal(kind, 3, 2), next(signs), equal(kind, 3, None))
        cases.add("compare", equal(kind, 65, 2), next(signs), equal(kind, 65, 3))
    for left, right in zip(TYPES, TYPES[1:] + TYPES[:1]):
        cases.add("compare", sample(left, "", 1), "=", sample(right, "", 1))
    # Decimals of two widths.
    for left in ["8", "16", "32", "64", "128"]:
        for right in ["8", "16", "32", "64", "128"]:
            cases.add("compare", "decimal(9,2)/%s:1,-2,3,-128" % left, next(signs), "decimal(9,2)/%s?:1,2,~-3,3,-128@4" % right)


def add_bounds(cases):
    marks, bounds = turning(MARKS), turning(BOUNDS)
    for kind in KINDS:
        for mark in MARKS:
            column = sample(kind, mark, 7)
            for signs in [next(bounds), next(bounds)]:
                cases.add("between", column, signs, sample(kind, next(marks), 7, 1), sample(kind, next(marks), 7, 4))
                next(marks)
            next(bounds)
            cases.add("between", column, next(bounds), equal(kind, 7, 0), equal(kind, 7, 3))
            cases.add("between", column, next(bounds), equal(kind, 7, 2, True), sample(kind, next(marks), 7, 2))
            cases.add("between", column, next(bounds), sample(kind, next(marks), 7, 2), equal(kind, 7, 3, True))
        for signs in BOUNDS:
            cases.add("between", sample(kind, "", 4), signs, sample(kind, "", 4), sample(kind, "?", 4, 1))
        cases.add("between", sample(kind, "?", 65), next(bounds), equal(kind, 65, 2), sample(kind, "+", 65, 3))
    for kind in TYPES:
        for place in [0, None]:
            cases.add("between", equal(kind, 3, place), next(bounds), equal(kind, 3, 0), equal(kind, 3, 3))
            cases.add("between", equal(kind, 3, 0), next(bounds), equal(kind, 3, place), equal(kind, 3, 3))
            cases.add("between", equal(kind, 3, 0), next(bounds), equal(kind, 3, 2), equal(kind, 3, place))


def add_patterns(cases, chance):
    letters = ["a", "b", "\u00e9", "%", "_", "\\", "A"]
    word = lambda most: "".join(chance.choice(letters) for _ in range(chance.randrange(most))) or "''"
    for _ in range(100):
        cases.add("matches", word(6), word(6).replace("%", "a"))
    for mark in MARKS:
        for other in MARKS:
            for count in [5, 65]:
                texts = held("utf8", mark, [word(4).replace("%", "b") for _ in range(5)])
                patterns = held("utf8", other, [word(4) for _ in range(5)])
                cases.add("like", texts + "@%d" % count, patterns + "@%d" % count)
            cases.add("like", texts, "utf8*5:" + word(4))
            cases.add("like", "utf8?*5:" + word(4), patterns)
    cases.add("like", "utf8:", "utf8:")
    cases.add("like", "utf8*0:a", "utf8?*0:-")
    for left in KINDS:
        cases.add("like", sample(left, "", 1), "utf8:%")
        cases.add("like", "utf8:a", sample(left, "", 1))


def add_casts(cases):
    for source in WIDTHS:
        for target in WIDTHS:
            numbers = set(ends(source)) | {0}
            for end in ends(target):
                numbers |= {end - 1, end, end + 1}
            numbers = [number for number in sorted(numbers) if is_in_range(source, number)]
            fitting = [number for number in numbers if is_in_range(target, number)]
            cases.add("cast", "%s:%s" % (source, ",".join(map(str, fitting))), target)
            cases.add("cast", "%s*2:%d" % (source, fitting[-1]), target + "?")
            for number in numbers:
                if number not in fitting:
                    cases.add("cast", "%s:0,%d,%d" % (source, number, number), target)
            greatest = ends(source)[1]
            cases.add("cast", "%s?:1,~%d,0" % (source, greatest), target + "?")
            cases.add("cast", "%s?:1,%d,~0" % (source, greatest), target)
            cases.add("cast", "%s*2:%d" % (source, greatest), target)
        for mark in MARKS:
            cases.add("cast", "%s%s:1,2,3@65" % (source, mark), "i64?")
            cases.add("cast", "%s%s:1,2,3@130" % (source, mark), "u8")
    # Numbers are cast by blocks of 512 rows.
    for count in [511, 512, 513, 1024, 1025]:
        front = ["1"] * (count - 1)
        for last in ["1", "300", "~300"]:
            for target in ["u8", "u8?"]:
                cases.add("cast", "i32?:" + ",".join(front + [last]), target)
        cases.add("cast", "i32:" + ",".join(front + ["300"]), "u8")
        cases.add("cast", "i32?:" + ",".join(["~300"] + front), "u8?")
    targets = turning(TYPES)
    for source in KINDS:
        for target in TYPES:
            if source not in WIDTHS or target not in WIDTHS:
                cases.add("cast", sample(source, "", 1), type_of(target))
        cases.add("cast", equal(source, 1, None), type_of(next(targets), True))
        for mark in MARKS:
            cases.add("cast", sample(source, mark, 4), type_of(source))
            cases.add("cast", sample(source, mark, 4), type_of(source, True))
        cases.add("cast", sample(source, "?", 65), type_of(source, True))
        cases.add("cast", sample(source, "!", 0), type_of(source))
    for source in TYPES:
        for place in [2, None]:
            for count in [0, 2]:
                cases.add("cast", equal(source, count, place), type_of(source))
                cases.add("cast", equal(source, count, place), type_of(source, True))


def add_orders(cases, chance):
    """Rows that rise between the nulls at the front and those at the end, and small columns of chance."""
    for count in [0, 1, 2, 63, 64, 65, 128, 130]:
        for first, last in [(0, count), (1, count), (max(count - 1, 0), count), (count, count), (0, max(count - 1, 0)), (2, count)]:
            rows = [str(i) if first <= i < last else "~%d" % i for i in range(count)]
            for call in ["orders", "min_max"] if first < 2 else ["orders"]:
                cases.add(call, "i32?:" + ",".join(rows))
    rising = {"bool": ["0", "1"], "utf8": ["''", "A", "a", "aa", "\u00e9"], "binary": ["''", "00", "0000", "7f", "80"]}
    for kind in KINDS:
        if kind in rising:
            rows = rising[kind]
        else:
            rows = [str(n) for n in sorted({int(row) for row in ROWS[kind]})]
        for mark in ["", "?"]:
            for made in [rows, rows[::-1], [rows[0]] + rows, [rows[-1]] * 3, rows[:1] + [rows[1]] * 3]:
                cases.add("orders", kind + mark + ":" + ",".join(made))
        cases.add("orders", kind + "?:-," + ",".join(rows))
        cases.add("orders", kind + "?:-,-," + ",".join(rows))
        cases.add("orders", kind + "?:" + ",".join(rows) + ",-")
        for _ in range(4):
            made = ",".join(chance.choice(rows + ["-"]) for _ in range(3))
            cases.add("orders", kind + "?:" + made)
            cases.add("min_max", kind + "?:" + made)
        for count in [0, 1, 2]:
            cases.add("orders", equal(kind, count, 1))
            cases.add("orders", equal(kind, count, None))
            cases.add("min_max", equal(kind, count, 1, True))


def add_truths(cases):
    pairs = [(a, b) for a in ["1", "0", "-"] for b in ["1", "0", "-"]]
    forms = [["1", "~1", "0", "~0", "1", "0", "0"], ["0", "1", "~1", "1", "~0"]]
    left, right = ",".join(a for a, _ in pairs), ",".join(b for _, b in pairs)
    for call in ["kleene_and", "kleene_or", "both_true"]:
        cases.add(call, "bool?:" + left, "bool?:" + right)
        for mark in MARKS:
            for other in MARKS:
                for count in [0, 35, 65]:
                    a = [row if mark == "?" else row[-1] for row in forms[0]]
                    b = [row if other == "?" else row[-1] for row in forms[1]]
                    at = "@%d" % count if count else ""
                    a, b = (",".join(a), ",".join(b)) if count else ("", "")
                    cases.add(call, "bool%s:%s%s" % (mark, a, at), "bool%s:%s%s" % (other, b, at))
    for mark in MARKS:
        for count in LENGTHS:
            cases.add("negate", sample("bool", mark, count))
            cases.add("true_mask", sample("bool", mark, count))


def add_asked(cases):
    signs, bounds = turning(SIGNS), turning(BOUNDS)
    for kind in KINDS:
        name, rows = type_of(kind), ROWS[kind]
        column = sample(kind, "?", 11)
        for sign in SIGNS:
            cases.add("test", column, "compare", sign, name + "=" + rows[3])
        for signs_ in BOUNDS:
            cases.add("test", column, "between", signs_, name + "=" + rows[0], name + "?=" + rows[3])
        cases.add("test", column, "like", "%b%")
    for left, right in zip(TYPES, TYPES[1:] + TYPES[:1]):
        cases.add("test", sample(left, "", 3), "compare", "!=", type_of(right) + "=" + ROWS[right][0])


def add_batches(cases):
    for count in LENGTHS:
        columns = [sample(kind, mark, count) for kind, mark in zip(SOME, turning(["?", "", "+", "?", "!"]))]
        columns.append("i32?*%d:9" % count)
        cases.add("batch", count, *columns)
        cases.add("batch", count + 1, *columns)
        cases.add("head", count // 2, count, *columns)
        cases.add("head", count, count, columns[0])
        cases.add("head", count + 1, count, columns[0])
    for kind in SOME:
        for bits in ["101@63", "101@64", "101@65", "1@64"]:
            if kind not in ("utf8", "binary"):
                cases.add("try_new", sample(kind, "", 64), bits)


def made_cases():
    cases = Cases()
    chance = random.Random(20240229)
    add_reads(cases)
    add_parts(cases)
    add_taken(cases)
    add_comparisons(cases)
    add_bounds(cases)
    add_patterns(cases, chance)
    add_casts(cases)
    add_orders(cases, chance)
    add_truths(cases)
    add_asked(cases)
    add_batches(cases)
    return cases.lines


def worked_rows():
    """The worked rows, each with its answer by hand."""
    rows = []
    with open(os.path.join(HERE, "arrays.txt"), encoding="utf-8") as file:
        for line in file:
            line = line.rstrip("\n")
            if line and not line.startswith("#"):
                case, _, by_hand = (line + " ").rpartition(" = ")
                rows.append((case, by_hand.rstrip(" ")))
    return rows


def main():
    rows = worked_rows()
    differing = [(case, by_hand, answer(case)) for case, by_hand in rows if answer(case) != by_hand]
    for case, by_hand, by_model in differing:
        print("%s\n  by hand:  %s\n  by model: %s" % (case, by_hand, by_model), file=sys.stderr)
    if differing:
        sys.exit(1)
    known = {case for case, _ in rows}
    cases = [case for case, _ in rows] + [case for case in made_cases() if case not in known]
    with open(os.path.join(CRATE, "stdin"), "w", encoding="utf-8") as file:
        file.writelines(case + "\n" for case in cases)
    with open(os.path.join(CRATE, "stdout"), "w", encoding="utf-8") as file:
        file.writelines("%s = %s\n" % (case, answer(case)) for case in cases)


if __name__ == "__main__":
    main()
