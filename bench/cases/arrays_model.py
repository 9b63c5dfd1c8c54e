"""A model of the calls on columns: what each case of `crates/array_cases` has to answer. It has its own meaning of each call,
and shares nothing with the program. How a case is spelled stands at the top of `crates/array_cases/src/main.rt`."""

UNSIGNED = ["u8", "u16", "u32", "u64"]
SIGNED = ["i8", "i16", "i32", "i64"]
WIDTHS = UNSIGNED + SIGNED
SIGNS = ["=", "!=", ">", ">=", "<", "<="]
BOUNDS = ["[]", "(]", "[)", "()"]


class NoSuchCall(Exception):
    """A condition of the call is not met."""


class NotUnderstood(Exception):
    """The line is no case."""


def ends(width):
    """The least and the greatest number of a width."""
    bits = int(width[1:])
    if width[0] == "u":
        return 0, 2**bits - 1
    return -(2 ** (bits - 1)), 2 ** (bits - 1) - 1


# Types. A type is a pair: its name without nulls, and whether it has nulls.


def parse_type(word):
    nullable = word.endswith("?")
    name = word[:-1] if nullable else word
    check_name(name)
    return name, nullable


def check_name(name):
    if name in WIDTHS or name in ("bool", "utf8", "binary"):
        return
    if not (name.startswith("decimal(") and name.endswith(")")):
        raise NotUnderstood
    try:
        precision, scale = map(int, name[8:-1].split(","))
    except ValueError:
        raise NotUnderstood
    if not 1 <= precision <= 38 or not -128 <= scale <= 127:
        raise NotUnderstood


def type_text(dtype):
    return dtype[0] + ("?" if dtype[1] else "")


# Rows. A row is None where it is null, else a bool, an int, a str or bytes.


def parse_value(name, word):
    try:
        if name == "bool":
            return {"1": True, "0": False}[word]
        if name == "utf8":
            return "" if word == "''" else word
        if name == "binary":
            return bytes.fromhex("" if word == "''" else word)
        number = int(word)
    except (KeyError, ValueError):
        raise NotUnderstood
    return number


def row_text(row):
    if row is None:
        return "-"
    if isinstance(row, bool):
        return "1" if row else "0"
    if isinstance(row, int):
        return str(row)
    if isinstance(row, bytes):
        return row.hex() or "''"
    return row or "''"


def key(row):
    """What a row is ordered by: null below every value, texts by their bytes."""
    if row is None:
        return (0,)
    return (1, row.encode() if isinstance(row, str) else row)


def is_in_range(name, value):
    if name in WIDTHS:
        least, greatest = ends(name)
        return least <= value <= greatest
    return True


# Columns.


class Column:
    """A type and rows; whether one row is kept for all; what is kept: of a constant column that row."""

    def __init__(self, dtype, rows, constant=False, kept=None):
        self.dtype = dtype
        self.rows = rows
        self.constant = constant
        self.kept = kept

    def text(self):
        head = type_text(self.dtype)
        if self.constant:
            head += "*%d" % len(self.rows)
        shown = []
        for row in self.rows:
            word = row_text(row)
            if shown and shown[-1][0] == word:
                shown[-1][1] += 1
            else:
                shown.append([word, 1])
        return head + ":" + ",".join(w if n == 1 else "%s^%d" % (w, n) for w, n in shown)


def parse_count(word):
    if not word.isdigit():
        raise NotUnderstood
    return int(word)


def parse_rows(words):
    """The words of rows, repeated where that is said."""
    words, at, count = words.partition("@")
    listed = words.split(",") if words else []
    if not at:
        return listed
    count = parse_count(count)
    if not listed:
        raise NotUnderstood
    return [listed[i % len(listed)] for i in range(count)]


def parse_scalar_of(name, word):
    dtype = parse_type(name)
    if word == "-" or word.startswith("~"):
        value = None
    else:
        value = parse_value(dtype[0], word)
    if value is None and not dtype[1]:
        raise NoSuchCall
    if value is not None and not is_in_range(dtype[0], value):
        raise NoSuchCall
    return dtype, value


def parse_scalar(word):
    if "=" not in word:
        raise NotUnderstood
    name, _, row = word.partition("=")
    return parse_scalar_of(name, row)


def scalar_text(scalar):
    return type_text(scalar[0]) + "=" + row_text(scalar[1])


def parse_column(word):
    if ":" not in word:
        raise NotUnderstood
    head, _, words = word.partition(":")
    if "*" in head:
        name, _, count = head.partition("*")
        dtype, value = parse_scalar_of(name, words)
        return Column(dtype, [value] * parse_count(count), True, value)
    mark = head[-1:] if head[-1:] in ("?", "+", "!") else ""
    return plain_column(head[: len(head) - len(mark)], mark, parse_rows(words))


def plain_column(head, mark, words, valid=None):
    """`valid` says which rows are not null, where that stands apart from the rows."""
    name, _, bits = head.partition("/")
    check_name(name)
    held, nulls = [], []
    for word in words:
        nulls.append(word == "-" or word.startswith("~"))
        word = word.lstrip("~") if word != "-" else ""
        held.append(parse_value(name, word) if word else {"bool": False, "utf8": "", "binary": b""}.get(name, 0))
    least, greatest = ends(name) if name in WIDTHS else ends("i" + (bits or "64")) if name[:7] == "decimal" else (0, 0)
    if name in WIDTHS or name[:7] == "decimal":
        if any(not least <= value <= greatest for value in held):
            raise NotUnderstood
    if valid is None:
        if mark in ("", "+") and any(nulls):
            raise NotUnderstood
        if mark == "!":
            nulls = [True] * len(held)
    else:
        if len(valid) != len(held):
            return None
        nulls = [not bit for bit in valid]
        mark = "?"
    rows = [None if null else value for null, value in zip(nulls, held)]
    return Column((name, mark != ""), rows, kept=(bits or "64", mark, held, nulls))


def parse_bits(word):
    word, at, count = word.partition("@")
    bits = [letter == "1" for letter in word]
    if not at:
        return bits
    if not bits:
        raise NotUnderstood
    return [bits[i % len(bits)] for i in range(parse_count(count))]


def bits_text(bits):
    return "".join("1" if bit else "0" for bit in bits)


def parse_mask(word, count):
    if word in ("all", "none"):
        return [word == "all"] * count
    return parse_bits(word)


# Calls on one column. Each takes the column and the further words.


def place_of(column, words):
    place = parse_count(words)
    if place >= len(column.rows):
        raise NoSuchCall
    return place


def call_len(column, words):
    return "%d, empty: %s" % (len(column.rows), "no" if column.rows else "yes")


def call_dtype(column, words):
    return type_text(column.dtype)


def call_is_valid(column, words):
    return "no" if column.rows[place_of(column, words)] is None else "yes"


def call_value_at(column, words):
    return row_text(column.rows[place_of(column, words)])


def call_scalar_at(column, words):
    return scalar_text((column.dtype, column.rows[place_of(column, words)]))


def call_validity_mask(column, words):
    return bits_text(row is not None for row in column.rows)


def call_try_clone(column, words):
    return column.text()


def call_into_nullable(column, words):
    return Column((column.dtype[0], True), column.rows, column.constant).text()


def call_kept(column, words):
    name = column.dtype[0]
    if column.constant:
        return "%s, %d times" % (scalar_text((column.dtype, column.kept)), len(column.rows))
    bits, mark, held, nulls = column.kept
    valid = bits_text(not null for null in nulls)
    if name in ("utf8", "binary"):
        return "lists, not null at " + valid
    if name == "bool":
        head = "bits " + bits_text(held)
    else:
        head = " ".join([name + ("/" + bits if name[:7] == "decimal" else "")] + [str(value) for value in held])
    forms = {"": "no null in the type", "+": "no row is null", "!": "each row is null", "?": "not null at " + valid}
    return head + ", " + forms[mark]


def call_slice(column, words):
    start, _, end = words.partition(" ")
    start, end = parse_count(start), parse_count(end)
    if not start <= end <= len(column.rows):
        raise NoSuchCall
    return Column(column.dtype, column.rows[start:end], column.constant).text()


def call_filter(column, words):
    mask = parse_mask(words, len(column.rows))
    if len(mask) != len(column.rows):
        raise NoSuchCall
    return Column(column.dtype, [row for row, bit in zip(column.rows, mask) if bit], column.constant).text()


def are_indices(column, count):
    return column.dtype[0] in UNSIGNED and all(row is None or row < count for row in column.rows)


def call_take(column, words):
    indices = parse_column(words)
    if not are_indices(indices, len(column.rows)):
        raise NoSuchCall
    rows = [None if i is None else column.rows[i] for i in indices.rows]
    # Equal rows stay equal rows where the way in which the indices are kept has no null.
    has_none = indices.kept is not None if indices.constant else indices.kept[1] in ("", "+")
    dtype = (column.dtype[0], column.dtype[1] or indices.dtype[1])
    return Column(dtype, rows, column.constant and has_none).text()


def call_names_rows(column, words):
    return "yes" if are_indices(column, parse_count(words)) else "no"


def holds(sign, left, right):
    left, right = key(left), key(right)
    return {
        "=": left == right,
        "!=": left != right,
        ">": left > right,
        ">=": left >= right,
        "<": left < right,
        "<=": left <= right,
    }[sign]


def check_comparable(*columns):
    for other in columns[1:]:
        if len(other.rows) != len(columns[0].rows) or other.dtype[0] != columns[0].dtype[0]:
            raise NoSuchCall


def truths(columns, answers):
    return Column(("bool", any(column.dtype[1] for column in columns)), answers).text()


def call_compare(column, words):
    sign, _, other = words.partition(" ")
    if sign not in SIGNS:
        raise NotUnderstood
    other = parse_column(other)
    check_comparable(column, other)
    answers = [None if a is None or b is None else holds(sign, a, b) for a, b in zip(column.rows, other.rows)]
    return truths([column, other], answers)


def is_between(signs, row, lower, upper):
    return holds(">=" if signs[0] == "[" else ">", row, lower) and holds("<=" if signs[1] == "]" else "<", row, upper)


def call_between(column, words):
    signs, lower, upper = words.split(" ")
    if signs not in BOUNDS:
        raise NotUnderstood
    lower, upper = parse_column(lower), parse_column(upper)
    check_comparable(column, lower, upper)
    rows = zip(column.rows, lower.rows, upper.rows)
    answers = [None if None in (row, a, b) else is_between(signs, row, a, b) for row, a, b in rows]
    return truths([column, lower, upper], answers)


def does_match(pattern, text):
    """Whether a text matches a pattern: the places of the text that are reached, after each character of the pattern."""
    reached = {0}
    i = 0
    while i < len(pattern):
        letter = pattern[i]
        if letter == "%":
            reached = set(range(min(reached), len(text) + 1)) if reached else set()
        else:
            any_one = letter == "_"
            if letter == "\\" and i + 1 < len(pattern):
                i += 1
                letter = pattern[i]
            reached = {k + 1 for k in reached if k < len(text) and (any_one or text[k] == letter)}
        i += 1
    return len(text) in reached


def call_like(column, words):
    patterns = parse_column(words)
    if column.dtype[0] != "utf8" or patterns.dtype[0] != "utf8" or len(column.rows) != len(patterns.rows):
        raise NoSuchCall
    pairs = zip(column.rows, patterns.rows)
    answers = [None if text is None or pattern is None else does_match(pattern, text) for text, pattern in pairs]
    return truths([column, patterns], answers)


def kind(name):
    return "int" if name in WIDTHS else name[:7]


def call_test(column, words):
    which, _, words = words.partition(" ")
    if which == "like":
        pattern = "" if words == "''" else words
        asked = lambda row: column.dtype[0] == "utf8" and does_match(pattern, row)
    elif which == "compare":
        sign, _, word = words.partition(" ")
        if sign not in SIGNS:
            raise NotUnderstood
        dtype, constant = parse_scalar(word)
        if constant is None:
            raise NoSuchCall
        same = kind(dtype[0]) == kind(column.dtype[0])
        asked = lambda row: same and holds(sign, row, constant)
    elif which == "between":
        signs, lower, upper = words.split(" ")
        if signs not in BOUNDS:
            raise NotUnderstood
        lower, upper = parse_scalar(lower), parse_scalar(upper)
        if lower[1] is None or upper[1] is None:
            raise NoSuchCall
        kinds = {kind(lower[0][0]), kind(upper[0][0]), kind(column.dtype[0])}
        asked = lambda row: len(kinds) == 1 and is_between(signs, row, lower[1], upper[1])
    else:
        raise NotUnderstood
    return "".join("-" if row is None else "1" if asked(row) else "0" for row in column.rows)


def call_cast(column, words):
    dtype = parse_type(words)
    both_numbers = dtype[0] in WIDTHS and column.dtype[0] in WIDTHS
    if dtype[0] != column.dtype[0] and not both_numbers:
        return "unsupported"
    for i, row in enumerate(column.rows):
        if row is None:
            if not dtype[1]:
                return "row %d is null" % i
        elif not is_in_range(dtype[0], row):
            return "row %d does not fit" % i
    return Column(dtype, column.rows, column.constant).text()


def call_fill_null(column, words):
    dtype, value = parse_scalar(words)
    if value is None or dtype[0] != column.dtype[0]:
        raise NoSuchCall
    return Column(dtype, [value if row is None else row for row in column.rows]).text()


def call_min_max(column, words):
    values = [row for row in column.rows if row is not None]
    if not values:
        return "none"
    dtype = (column.dtype[0], False)
    return scalar_text((dtype, min(values, key=key))) + " to " + scalar_text((dtype, max(values, key=key)))


def call_orders(column, words):
    keys = [key(row) for row in column.rows]
    steps = list(zip(keys, keys[1:]))
    names = []
    if keys and all(a == b for a, b in steps):
        names.append("constant")
    if all(a <= b for a, b in steps):
        names.append("sorted")
    if all(a < b for a, b in steps):
        names.append("strictly sorted")
    return ", ".join(names) or "in no order"


def check_truths(*columns):
    for column in columns:
        if column.constant or column.dtype[0] != "bool":
            raise NoSuchCall
        if len(column.rows) != len(columns[0].rows):
            raise NoSuchCall


def call_negate(column, words):
    check_truths(column)
    return truths([column], [None if row is None else not row for row in column.rows])


def call_true_mask(column, words):
    check_truths(column)
    return bits_text(row is True for row in column.rows)


def joined(decides):
    """Truth values joined in three values: one that decides, else null, else the other truth value."""

    def call(column, words):
        check_truths(column)
        other = parse_column(words)
        check_truths(column, other)
        answers = []
        for pair in zip(column.rows, other.rows):
            answers.append(decides if decides in pair else None if None in pair else not decides)
        return truths([column, other], answers)

    return call


def call_both_true(column, words):
    check_truths(column)
    other = parse_column(words)
    check_truths(column, other)
    answers = [None if None in pair else all(pair) for pair in zip(column.rows, other.rows)]
    return truths([column, other], answers)


ON_COLUMNS = {name[5:]: call for name, call in list(globals().items()) if name.startswith("call_")}
ON_COLUMNS["kleene_and"] = joined(False)
ON_COLUMNS["kleene_or"] = joined(True)


# Further calls.


def try_new(words):
    column, _, valid = words.partition(" ")
    head, _, rows = column.partition(":")
    made = plain_column(head, "", parse_rows(rows), parse_bits(valid))
    return made.text() if made else "another length"


def push(words):
    name, _, words = words.partition(" ")
    dtype = parse_type(name)
    if dtype[0] not in ("utf8", "binary"):
        raise NotUnderstood
    told, rows = "", []
    for word in words.split(","):
        if word == "-":
            answer = "ok" if dtype[1] else "wrong type"
            row = None
        else:
            row = parse_value("binary", word)
            answer = "ok"
            if dtype[0] == "utf8":
                try:
                    row = row.decode("utf-8")
                except UnicodeDecodeError:
                    answer = "not UTF-8"
        if answer == "ok":
            rows.append(row)
        told += answer + ","
    return told + " " + Column(dtype, rows).text()


def batch_text(rows, columns):
    return " ".join(["%d rows" % rows] + [column.text() for column in columns])


def batch(words):
    rows, *words = words.split(" ")
    columns = [parse_column(word) for word in words]
    if any(len(column.rows) != int(rows) for column in columns):
        return "another length"
    return batch_text(int(rows), columns)


def head(words):
    count, rows, *words = words.split(" ")
    count, rows = int(count), int(rows)
    columns = [parse_column(word) for word in words]
    if any(len(column.rows) != rows for column in columns):
        return "another length"
    if count > rows:
        raise NoSuchCall
    return batch_text(count, [Column(c.dtype, c.rows[:count], c.constant) for c in columns])


def matches(words):
    pattern, _, text = words.partition(" ")
    pattern, text = parse_value("utf8", pattern), parse_value("utf8", text)
    return "yes" if does_match(pattern, text) else "no"


OTHERS = {"try_new": try_new, "push": push, "batch": batch, "head": head, "matches": matches}


def answer(case):
    call, _, words = case.partition(" ")
    try:
        if call in OTHERS:
            return OTHERS[call](words)
        column, _, words = words.partition(" ")
        column = parse_column(column)
        if call not in ON_COLUMNS:
            check_truths(column)
            check_truths(column, parse_column(words))
            raise NotUnderstood
        return ON_COLUMNS[call](column, words)
    except NoSuchCall:
        return "no such call"
    except NotUnderstood:
        return "not understood"
