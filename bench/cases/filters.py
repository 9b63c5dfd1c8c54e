#!/usr/bin/env python3
"""Cases of filters, patterns and values for the program `filter_cases`, with the answers that are wanted.

Run at the top of the repository: python3 bench/cases/filters.py
It writes crates/filter_cases/stdin (the cases, one a line) and stdout (each case, ` = ` and its answer). The answers are a
model's, written here from the rules alone: nothing is taken from the program. The first cases are those of filters.txt,
which were worked by hand; the model has to agree with each of them, or nothing is written.

A case is a family's name and words, with one space between two words:

  like PATTERN TEXT                 whether the whole text matches
  like_to PATTERN VALUE..           what the test answers of each value
  compare_to OPERATOR SCALAR VALUE..
  between_to BRACKETS SCALAR SCALAR VALUE..
  decimal (PRECISION,SCALE)         the type, or `refused`
  scalar TYPE VALUE                 its copy and its value, or `refused`; `null` for the value is null
  value VALUE                       its copy
  order VALUE VALUE                 less, equal, greater, or none for two kinds
  accepts OPERATOR ORDERING
  compares OPERATOR VALUE VALUE
  check COLUMN:TYPE.. : FILTER      ok, `unknown NAME`, or `types`
  copy FILTER                       the copy

In a text `␣` stands for a space, and '' is the empty text. A type is as i32, utf8? or decimal(5,2); a value as int:7 or
binary:00ff; a scalar as i32:7 or null:i32?. A square bracket takes a bound in, a round one leaves it out. A filter stands
in prefix form, as and not cmp > x i32:1 is_null y; a word with a colon in it is a constant, another one a column.
"""
import itertools
import pathlib
import random

ROOT = pathlib.Path(__file__).resolve().parents[2]
WIDTHS = {
    "u8": (0, 2**8 - 1), "u16": (0, 2**16 - 1), "u32": (0, 2**32 - 1), "u64": (0, 2**64 - 1),
    "i8": (-(2**7), 2**7 - 1), "i16": (-(2**15), 2**15 - 1), "i32": (-(2**31), 2**31 - 1), "i64": (-(2**63), 2**63 - 1),
}
KINDS = ("bool", "int", "decimal", "utf8", "binary")
OPERATORS = {
    "=": ("equal",), "!=": ("less", "greater"), ">": ("greater",), ">=": ("greater", "equal"),
    "<": ("less",), "<=": ("less", "equal"),
}
BRACKETS = {"[]": (">=", "<="), "[)": (">=", "<"), "(]": (">", "<="), "()": (">", "<")}


# Words.


def text_of(word):
    return "" if word == "''" else word.replace("␣", " ")


def text_word(text):
    return text.replace(" ", "␣") or "''"


def shown(kind, value):
    if kind == "bool":
        return "true" if value else "false"
    if kind == "utf8":
        return text_word(value)
    return value.hex() if kind == "binary" else str(value)


def read(kind, word):
    if kind == "bool":
        return {"true": True, "false": False}[word]
    if kind == "utf8":
        return text_of(word)
    return bytes.fromhex(word) if kind == "binary" else int(word)


def value_of(word):
    kind, _, rest = word.partition(":")
    return kind, read(kind, rest)


def value_word(value):
    return f"{value[0]}:{shown(*value)}"


def kind_of(dtype):
    base = dtype.rstrip("?")
    return "int" if base in WIDTHS else "decimal" if base.startswith("decimal") else base


def scalar_of(word):
    """A type, and a value or none."""
    dtype, _, rest = word.partition(":")
    if dtype == "null":
        return rest, None
    return dtype, (kind_of(dtype), read(kind_of(dtype), rest))


def scalar_word(dtype, value):
    return f"null:{dtype}" if value is None else f"{dtype}:{shown(*value)}"


# Patterns, by a table over both lengths.


def elements(pattern):
    place = 0
    while place < len(pattern):
        if pattern[place] == "%":
            yield "run", None
        elif pattern[place] == "_":
            yield "one", None
        elif pattern[place] == "\\" and place + 1 < len(pattern):
            place += 1
            yield "letter", pattern[place]
        else:
            yield "letter", pattern[place]
        place += 1


def matches(pattern, text):
    # Which beginnings of the text the elements so far can take up.
    ends = {0}
    for kind, letter in elements(pattern):
        if kind == "run":
            ends = {end for start in ends for end in range(start, len(text) + 1)}
        else:
            ends = {start + 1 for start in ends if start < len(text) and (kind == "one" or text[start] == letter)}
    return len(text) in ends


# Values.


def fits(dtype, value):
    if value is None:
        return dtype.endswith("?")
    if value[0] != kind_of(dtype):
        return False
    least, greatest = WIDTHS.get(dtype.rstrip("?"), (value[1], value[1]))
    return least <= value[1] <= greatest


def order(a, b):
    if a[0] != b[0]:
        return "none"
    x, y = (v.encode() if isinstance(v, str) else v for v in (a[1], b[1]))
    return "less" if x < y else "greater" if y < x else "equal"


def compares(operator, a, b):
    return order(a, b) in OPERATORS[operator]


# Filters.

# How many operands and how many filters each form has.
FORMS = {
    "truth": (1, 0), "is_null": (1, 0), "cmp": (2, 0), "between": (3, 0), "like": (2, 0),
    "not": (0, 1), "and": (0, 2), "or": (0, 2),
}


def filter_of(words):
    """A filter and the words behind it."""
    form, rest = words[0], words[1:]
    mark = rest.pop(0) if form in ("cmp", "between") else None
    operands, filters = FORMS[form]
    inner, rest = rest[:operands], rest[operands:]
    for _ in range(filters):
        part, rest = filter_of(rest)
        inner.append(part)
    return (form, mark, inner), rest


def whole_filter(words):
    found, rest = filter_of(list(words))
    assert not rest, words
    return found


def filter_word(found):
    form, mark, inner = found
    head = [form] if mark is None else [form, mark]
    parts = []
    for part in inner:
        if isinstance(part, tuple):
            parts.append(filter_word(part))
        elif ":" in part:
            parts.append(scalar_word(*scalar_of(part)))
        else:
            parts.append(part)
    return " ".join(head + parts)


def names(found):
    for part in found[2]:
        if isinstance(part, tuple):
            yield from names(part)
        elif ":" not in part:
            yield part


def type_of(columns, operand):
    return scalar_of(operand)[0] if ":" in operand else columns[operand]


def is_well_typed(columns, found):
    form, _, inner = found
    if form in ("not", "and", "or"):
        return all(is_well_typed(columns, part) for part in inner)
    types = [type_of(columns, operand).rstrip("?") for operand in inner]
    if form == "truth":
        return types[0] == "bool"
    if form == "like":
        return types == ["utf8", "utf8"] and ":" in inner[1]
    return form == "is_null" or len(set(types)) == 1


def check(columns, found):
    for name in names(found):
        if name not in columns:
            return f"unknown {name}"
    return "ok" if is_well_typed(columns, found) else "types"


# The answer of a case.


def truth(answer):
    return "true" if answer else "false"


def truths(test, words):
    return " ".join(truth(test(value_of(word))) for word in words)


def decimal(word):
    precision = int(word[1:].split(",")[0])
    return f"decimal{word}" if 1 <= precision <= 38 else "refused"


def scalar(dtype, word):
    value = None if word == "null" else value_of(word)
    if not fits(dtype, value):
        return "refused"
    return f"{scalar_word(dtype, value)} {'null' if value is None else value_word(value)}"


def checked(words):
    at = words.index(":")
    columns = dict(word.split(":") for word in words[:at])
    return check(columns, whole_filter(words[at + 1 :]))


def between_to(brackets, lower, upper, words):
    above, below = BRACKETS[brackets]
    lower, upper = scalar_of(lower)[1], scalar_of(upper)[1]
    return truths(lambda v: compares(above, v, lower) and compares(below, v, upper), words)


def answer(case):
    family, *words = case.split(" ")
    if family == "like":
        return truth(matches(text_of(words[0]), text_of(words[1])))
    if family == "like_to":
        return truths(lambda v: v[0] == "utf8" and matches(text_of(words[0]), v[1]), words[1:])
    if family == "compare_to":
        return truths(lambda v: compares(words[0], v, scalar_of(words[1])[1]), words[2:])
    if family == "between_to":
        return between_to(*words[:3], words[3:])
    if family == "decimal":
        return decimal(words[0])
    if family == "scalar":
        return scalar(*words)
    if family == "value":
        return value_word(value_of(words[0]))
    if family == "order":
        return order(*map(value_of, words))
    if family == "accepts":
        return truth(words[1] in OPERATORS[words[0]])
    if family == "compares":
        return truth(compares(words[0], *map(value_of, words[1:])))
    if family == "check":
        return checked(words)
    assert family == "copy", case
    return filter_word(whole_filter(words))


# Cases.

ENDS = sorted({end + step for ends in WIDTHS.values() for end in ends for step in (-1, 0, 1)})
WIDEST = (-(2**127), 2**127 - 1)
TEXTS = ["", "a", "b", "ba", "Z", "é", "a b", "日本", "😀", "null"]
VALUES = (
    [("bool", False), ("bool", True)]
    + [("int", n) for n in (0, 1, -1, 7, -(2**63), 2**64 - 1, *WIDEST)]
    + [("decimal", n) for n in (0, 1, -150, *WIDEST)]
    + [("utf8", text) for text in TEXTS]
    + [("binary", data) for data in (b"", b"\x00", b"\x00\xff", b"\x01", b"\x7f\x80", b"\xff", b"a")]
)
PLAIN_TYPES = ["bool", *WIDTHS, "decimal(1,0)", "decimal(5,2)", "decimal(5,3)", "decimal(38,-128)", "utf8", "binary"]
TYPES = [base + nulls for base in PLAIN_TYPES for nulls in ("", "?")]


def short_words(alphabet, most):
    return ["".join(word) for length in range(most + 1) for word in itertools.product(alphabet, repeat=length)]


def like_cases(rng):
    for pattern in short_words("a%_\\é", 2):
        for text in short_words("a%\\é", 2):
            yield f"like {text_word(pattern)} {text_word(text)}"
    for _ in range(3000):
        pattern = "".join(rng.choice("aab%%_\\é 日") for _ in range(rng.randrange(9)))
        text = "".join(letters(rng, element) for element in elements(pattern))
        if rng.randrange(3) == 0 and text:
            place = rng.randrange(len(text))
            text = text[:place] + rng.choice(["", "a", "b", "é"]) + text[place + 1 :]
        yield f"like {text_word(pattern)} {text_word(text)}"


def letters(rng, element):
    if element[0] == "letter":
        return element[1]
    return "".join(rng.choice("abé %_\\") for _ in range(1 if element[0] == "one" else rng.randrange(4)))


def constants(rng, dtype):
    """Scalars of the type, none of them null."""
    kind = kind_of(dtype)
    chosen = [value for value in VALUES if value[0] == kind and fits(dtype, value)]
    return [scalar_word(dtype, value) for value in rng.sample(chosen, min(2, len(chosen)))]


def test_cases(rng):
    asked = " ".join(map(value_word, VALUES[::2]))
    for pattern in ("''", "%", "_", "a%", "%b", "é", "a␣b", "\\%", "null"):
        yield f"like_to {pattern} {asked}"
    for dtype in PLAIN_TYPES:
        for constant in constants(rng, dtype):
            for operator in OPERATORS:
                yield f"compare_to {operator} {constant} {asked}"
        for lower, upper in itertools.product(constants(rng, dtype), repeat=2):
            for brackets in BRACKETS:
                yield f"between_to {brackets} {lower} {upper} {asked}"
    for brackets in BRACKETS:
        yield f"between_to {brackets} i32:1 i64:3 int:0 int:1 int:2 int:3 int:4 decimal:2"
        yield f"between_to {brackets} i32:1 decimal(5,2):3 int:2 decimal:2"
        yield f"between_to {brackets} i32:3 i32:1 int:1 int:2 int:3"


def value_cases():
    for precision in (0, 1, 2, 37, 38, 39, 100, 255):
        for scale in (-128, -1, 0, 1, 38, 127):
            yield f"decimal ({precision},{scale})"
    for dtype in TYPES:
        yield f"scalar {dtype} null"
        ends = [("int", end) for end in ENDS] if kind_of(dtype) == "int" else []
        for value in VALUES + ends:
            yield f"scalar {dtype} {value_word(value)}"
    for value in VALUES:
        yield f"value {value_word(value)}"
    for a, b in itertools.product(VALUES, repeat=2):
        yield f"order {value_word(a)} {value_word(b)}"
    for operator in OPERATORS:
        for ordering in ("less", "equal", "greater"):
            yield f"accepts {operator} {ordering}"
        for a, b in itertools.product(VALUES[::3], repeat=2):
            yield f"compares {operator} {value_word(a)} {value_word(b)}"


def type_cases(rng):
    """Each rule of types, over columns and constants of each type."""
    for dtype in TYPES:
        constant = (constants(rng, dtype) + [f"null:{dtype}"])[0]
        for form in ("truth", "is_null"):
            yield f"check x:{dtype} : {form} x"
            yield f"check : {form} {constant}"
        for other in PLAIN_TYPES:
            operator, brackets = rng.choice(list(OPERATORS)), rng.choice(list(BRACKETS))
            yield f"check x:{dtype} y:{other} : cmp {operator} x y"
            yield f"check y:{other} : cmp {operator} y {constant}"
            operands = rng.choice(["x x y", "x y x", "y x x", f"x {constant} y"])
            yield f"check x:{dtype} y:{other} : between {brackets} {operands}"
        yield f"check x:{dtype} t:utf8 : like x t"
        yield f"check x:{dtype} : like x utf8:a%"
        yield f"check x:{dtype} : like x null:utf8?"
        yield f"check x:{dtype} : like utf8:a {constant}"
        yield f"check x:{dtype} : like utf8?:a x"


COLUMNS = {"x": "i32?", "y": "i32", "t": "utf8?", "b": "bool", "d": "decimal(5,2)?", "w": "u64", "c": "binary?"}


def operand(rng, dtype):
    """A column or constant, mostly of the type."""
    base = dtype if rng.randrange(40) else rng.choice(PLAIN_TYPES)
    if rng.randrange(25) == 0:
        return rng.choice(["zz", "yy", "x2"])
    fitting = [name for name, of in COLUMNS.items() if of.rstrip("?") == base]
    if fitting and rng.randrange(2):
        return rng.choice(fitting)
    if rng.randrange(8) == 0:
        return f"null:{base}?"
    chosen = constants(rng, base)
    return chosen[0] if chosen else f"null:{base}?"


def random_filter(rng, depth):
    form = rng.choice(list(FORMS) if depth else ["truth", "is_null", "cmp", "between", "like"])
    operands, filters = FORMS[form]
    mark = {"cmp": OPERATORS, "between": BRACKETS}.get(form)
    dtype = {"truth": "bool", "like": "utf8"}.get(form) or rng.choice(list(COLUMNS.values())).rstrip("?")
    words = [form] + ([rng.choice(list(mark))] if mark else [])
    words += [operand(rng, dtype) for _ in range(operands)]
    words += [random_filter(rng, depth - 1) for _ in range(filters)]
    return " ".join(words)


def filter_cases(rng):
    columns = " ".join(f"{name}:{dtype}" for name, dtype in COLUMNS.items())
    for _ in range(1200):
        found = random_filter(rng, rng.randrange(4))
        yield f"check {columns} : {found}"
    for _ in range(600):
        yield f"copy {random_filter(rng, rng.randrange(5))}"
    for dtype in TYPES:
        for constant in constants(rng, dtype) + ([f"null:{dtype}"] if dtype.endswith("?") else []):
            yield f"copy is_null {constant}"
    for operator in OPERATORS:
        yield f"copy cmp {operator} x i32:1"
    for brackets in BRACKETS:
        yield f"copy between {brackets} x i32:1 y"


def worked():
    """The cases that were worked by hand, which the model answers alike."""
    for line in (ROOT / "bench/cases/filters.txt").read_text(encoding="utf-8").splitlines():
        if line and not line.startswith("#"):
            case, _, want = line.rpartition(" = ")
            assert answer(case) == want, f"{case}: the model says {answer(case)}, and by hand it is {want}"
            yield case


def main():
    rng = random.Random(20)
    cases = [*worked(), *like_cases(rng), *test_cases(rng), *value_cases(), *type_cases(rng), *filter_cases(rng)]
    cases = list(dict.fromkeys(cases))
    folder = ROOT / "crates/filter_cases"
    (folder / "stdin").write_text("".join(f"{case}\n" for case in cases), encoding="utf-8")
    (folder / "stdout").write_text("".join(f"{case} = {answer(case)}\n" for case in cases), encoding="utf-8")
    print(f"{len(cases)} cases")


if __name__ == "__main__":
    main()
