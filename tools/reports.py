"""Reads reports of `lc count --format json` and joins them, as docs/OUTPUT.md says. It shares nothing with lc: tools/test-reports compares
the two."""

import json

SPACE = " \t\n\r"
DEEPEST = 128
COLUMNS = ("ext", "text", "eol")
NUMBERS = ("files", "lines", "blank", "bytes")
TEXTS = {None, "set", "unset", "auto", "other"}
EOLS = {"lf", "crlf", "cr", "mixed", "none", "nul"}
FAULTS = {"read", "name", "twice", "many", "long", "endless", "absent"}
# Rules that are in no file of a directory.
TYPED = (b"--exclude", b"--exclude-from")


class Refused(Exception):
    """No report; its text is what follows the name of the report in the line of the error, or the class of it."""


class Lacking(Refused):
    """A report whose files have no states of an attribute that is asked for; its text is the name of the attribute's column."""


class Digits(str):
    """A number as it is written."""


class Members(list):
    """The members of an object, in order, with those that come twice."""


def no_constant(word):
    raise Refused(word)


DECODER = json.JSONDecoder(object_pairs_hook=Members, parse_int=Digits, parse_float=Digits, parse_constant=no_constant)


def depth(text):
    """How deep arrays and objects are in a JSON text."""
    deepest, now, quoted, skip = 0, 0, False, False
    for letter in text:
        if skip:
            skip = False
        elif quoted:
            quoted, skip = letter != '"', letter == "\\"
        elif letter == '"':
            quoted = True
        elif letter in "[{":
            now += 1
            deepest = max(deepest, now)
        elif letter in "]}":
            now -= 1
    return deepest


def is_unicode(text):
    """Whether no byte of a text stands for itself, since it is no UTF-8."""
    return not any("\udc80" <= letter <= "\udcff" for letter in text)


def objects(data):
    """The objects of a text, each as Members."""
    text = data.decode(errors="surrogateescape")
    at = 0
    found = 0
    while True:
        while at < len(text) and text[at] in SPACE:
            at += 1
        if at == len(text):
            break
        if text[at] != "{":
            raise Refused("no JSON object")
        try:
            value, end = DECODER.raw_decode(text, at)
        except (ValueError, RecursionError):
            raise Refused("no JSON object")
        if depth(text[at:end]) > DEEPEST or not is_unicode(text[at:end]):
            raise Refused("no JSON object")
        found += 1
        yield value
        at = end
    if not found:
        raise Refused("it is empty")


# ---- members

def values(members, name):
    return [value for key, value in members if key == name]


def one(members, name):
    found = values(members, name)
    if not found:
        raise Refused(f"no member {name}")
    if len(found) > 1:
        raise Refused(f"{name} twice")
    return found[0]


def number(members, name, bits=64):
    value = one(members, name)
    if not isinstance(value, Digits) or not value.isdigit() or int(value) >= 1 << bits:
        raise Refused(f"bad {name}")
    return int(value)


def word(members, name, words):
    value = one(members, name)
    if isinstance(value, (Digits, list)) or value not in words:
        raise Refused(f"bad {name}")
    return value


def plain(name, value):
    """The bytes of a text."""
    if isinstance(value, Digits) or not isinstance(value, str):
        raise Refused(f"bad {name}")
    try:
        return value.encode()
    except UnicodeEncodeError:
        raise Refused(f"bad {name}")


def listed(name, value):
    if type(value) is not list or not all(isinstance(n, Digits) and n.isdigit() and int(n) < 256 for n in value):
        raise Refused(f"bad {name}")
    return bytes(int(n) for n in value)


def octets(members, name):
    """The bytes that are a text under a name, or a list of numbers under another."""
    text, numbers = values(members, name), values(members, name + "_bytes")
    if len(text) + len(numbers) > 1:
        raise Refused(f"{name} twice")
    if numbers:
        return listed(name, numbers[0])
    return plain(name, one(members, name))


def lines_of(members, name):
    value = one(members, name)
    if type(value) is not list or not all(isinstance(line, Members) for line in value):
        raise Refused(f"bad {name}")
    return value


def object_of(members, name):
    value = one(members, name)
    if not isinstance(value, Members):
        raise Refused(f"bad {name}")
    return value


# ---- lines

def sums(members):
    return tuple(number(members, name, 64 if name == "files" else 128) for name in NUMBERS)


def extension(members):
    if values(members, "ext") == [None] and not values(members, "ext_bytes"):
        return None
    ext = octets(members, "ext")
    if len(ext) < 2 or ext[:1] != b"." or any(b in ext[1:] for b in b"\0./"):
        raise Refused("bad ext")
    return ext


def row(members):
    """The key of a row, with only the columns that it has, and its sums."""
    key = {}
    if values(members, "ext") or values(members, "ext_bytes"):
        key["ext"] = extension(members)
    if values(members, "text"):
        key["text"] = word(members, "text", TEXTS)
    if values(members, "eol"):
        key["eol"] = word(members, "eol", EOLS)
    counted = sums(members)
    if counted[0] == 0:
        raise Refused("bad files")
    return key, counted


def entry_path(members):
    path = octets(members, "path")
    if not path or path.endswith(b"/") or b"\0" in path:
        raise Refused("bad path")
    return path


def state(members, name):
    """The state of an attribute: None if it is unspecified, True or False if it is set or unset, or the bytes of its value."""
    found, numbers = values(members, name), values(members, name + "_bytes")
    if len(found) + len(numbers) > 1:
        raise Refused(f"{name} twice")
    if numbers:
        return listed(name, numbers[0])
    if not found:
        raise Lacking(name)
    return found[0] if found[0] is None or isinstance(found[0], bool) else plain(name, found[0])


def file(members, attributes):
    read = {"path": entry_path(members), "text": word(members, "text", TEXTS), "eol": word(members, "eol", EOLS),
            "lines": number(members, "lines"), "blank": number(members, "blank"), "bytes": number(members, "bytes")}
    return {**read, **{name: state(members, name) for name in attributes}}


def is_rule_file(path, name):
    """Whether a rule of this file can decide a path."""
    if name in TYPED:
        return True
    for end in (b".git/info/exclude", b".gitignore"):
        front = name[:len(name) - len(end)]
        if name.endswith(end) and (not front or front.endswith(b"/")) and path.startswith(front):
            return True
    return False


def skipped(members):
    path = entry_path(members)
    reason = word(members, "reason", {"git", "rule", "attribute", "include", "other", "filesystem"})
    entry = {"path": path, "reason": reason}
    if reason == "rule":
        entry["file"], entry["line"] = octets(members, "file"), number(members, "line", 32)
        if not is_rule_file(path, entry["file"]):
            raise Refused("bad file")
    if reason == "attribute":
        entry["attribute"] = octets(members, "attribute")
    entry["kind"] = word(members, "kind", {"file", "dir", "other"})
    only = {"include": "file", "other": "other", "filesystem": "dir"}.get(reason, entry["kind"])
    if entry["kind"] != only:
        raise Refused("bad kind")
    return entry


def fault(members):
    return {"word": word(members, "word", FAULTS), "path": octets(members, "path")}


# ---- reports

def added(lines):
    return tuple(map(sum, zip(*lines))) if lines else (0, 0, 0, 0)


def counted(one_file):
    return (1, one_file["lines"], one_file["blank"], one_file["bytes"])


def extension_of(path):
    name = path.rpartition(b"/")[2]
    front, dot, end = name.rpartition(b".")
    return b"." + end if dot and front and end else None


def by_key(rows):
    """The sums for each key, which is a tuple of pairs."""
    tally = {}
    for key, counted_row in rows:
        key = tuple(sorted(key.items()))
        tally[key] = added([tally.get(key, (0, 0, 0, 0)), counted_row])
    return tally


def report(members, attributes):
    """The report in an object, whose files have the states of attributes, each given by the name of its column."""
    rows = [row(line) for line in lines_of(members, "rows")]
    total, text, binary = (sums(object_of(members, name)) for name in ("total", "text", "binary"))
    made = {"total": total, "text": text, "binary": binary, "directories": number(members, "directories"),
            "faults": [fault(line) for line in lines_of(members, "faults")], "files": None, "left": None, "entries": None}
    if values(members, "files"):
        made["files"] = [file(line, attributes) for line in lines_of(members, "files")]
    if values(members, "left") or values(members, "entries"):
        made["left"] = [skipped(line) for line in lines_of(members, "left")]
        made["entries"] = number(members, "entries")
    if len({tuple(sorted(key)) for key, _ in rows}) > 1:
        raise Refused("rows with other columns")
    if values(members, "others"):
        one(members, "others")
        raise Refused("was cut by --top")
    if made["files"] is not None and len(made["files"]) < total[0]:
        raise Refused("was cut by --top")
    check_sums(made, rows, attributes)
    if attributes and made["files"] is None:
        raise Lacking(attributes[0])
    return made


def check_sums(made, rows, attributes):
    """Keeps rows whose sums are right, made of the files where they are listed."""
    total = made["total"]
    if added([line for _, line in rows]) != total or added([made["text"], made["binary"]]) != total:
        raise Refused("do not add up")
    columns = set(rows[0][0]) if rows else set(COLUMNS)
    if "eol" in columns and added([line for key, line in rows if key["eol"] == "nul"]) != made["binary"]:
        raise Refused("do not add up")
    if not rows and made["files"] is None:
        made["files"] = []
    if made["files"] is not None:
        if added([counted(one_file) for one_file in made["files"]]) != total:
            raise Refused("do not add up")
        columns = {*COLUMNS, *attributes}
        rows = [({"ext": extension_of(f["path"]), **{c: f[c] for c in columns if c != "ext"}}, counted(f)) for f in made["files"]]
        if added([line for key, line in rows if key["eol"] == "nul"]) != made["binary"]:
            raise Refused("do not add up")
    made["columns"], made["rows"] = columns, rows


def reports(data, attributes=()):
    return [report(members, attributes) for members in objects(data)]


# ---- names and sums

def named(name, one_report):
    """A report below a name."""
    def below(path):
        return name + b"/" + path if path else name

    moved = dict(one_report)
    if moved["files"] is not None:
        moved["files"] = [dict(f, path=below(f["path"])) for f in moved["files"]]
    if moved["left"] is not None:
        moved["left"] = [dict(e, path=below(e["path"]), **({"file": below(e["file"])} if e.get("file", TYPED[0]) not in TYPED else {}))
                         for e in moved["left"]]
    moved["faults"] = [dict(f, path=below(f["path"])) for f in moved["faults"]]
    return moved


def unique(lines):
    return [dict(line) for line in {tuple(sorted(line.items())) for line in lines}]


class Unsummed(Exception):
    """Why reports have no sum: the line of the error, without `lc: ` before it."""


def first_lack(parts, by):
    for origin, part in parts:
        for column in COLUMNS:
            if column in by and column not in part["columns"]:
                raise Unsummed(f"{origin} has no column {column}: count with --files")


def joined(parts, by, files, left):
    """The sum of reports, each with what it is called, by columns or by those that all have, with these lists."""
    if by is None:
        by = set(COLUMNS).intersection(*(part["columns"] for _, part in parts))
        if not by:
            raise Unsummed("no column is in every report: count with --files")
    first_lack(parts, by)
    for name, wanted, what in (("files", files, "files: count with --files"), ("left", left, "skipped entries: count with --left-out")):
        for origin, part in parts:
            if wanted and part[name] is None:
                raise Unsummed(f"{origin} has no {what}")
    paths = sorted(f["path"] for _, part in parts for f in part["files"] or [])
    for path, next_path in zip(paths, paths[1:]):
        if path == next_path:
            raise Unsummed("PATH is in two reports: lc sum NAME=REPORT tells them apart")
    made = {"rows": by_key([({c: key[c] for c in by}, line) for _, part in parts for key, line in part["rows"]])}
    for name in ("total", "text", "binary"):
        made[name] = added([part[name] for _, part in parts])
        if made[name][0] >= 1 << 64 or max(made[name]) >= 1 << 128:
            raise Unsummed("sums too large")
    made["directories"] = sum(part["directories"] for _, part in parts)
    made["entries"] = sum(part["entries"] for _, part in parts) if left else None
    made["faults"] = unique(f for _, part in parts for f in part["faults"])
    made["files"] = [f for _, part in parts for f in part["files"]] if files else None
    made["left"] = unique(e for _, part in parts for e in part["left"]) if left else None
    if made["directories"] >= 1 << 64 or (made["entries"] or 0) >= 1 << 64:
        raise Unsummed("sums too large")
    return made


def changes(old, new, by):
    """The rows by columns in which two sums differ, and the files that differ, each with what either sum has."""
    sides = [by_key([({c: dict(key)[c] for c in by}, line) for key, line in side["rows"].items()]) for side in (old, new)]
    none = (0, 0, 0, 0)
    rows = {key: tuple(side.get(key, none) for side in sides) for key in set(sides[0]) | set(sides[1])}
    files = [{f["path"]: f for f in side["files"] or []} for side in (old, new)]
    listed = {path: tuple(side.get(path) for side in files) for path in set(files[0]) | set(files[1])}
    return ({key: pair for key, pair in rows.items() if pair[0] != pair[1]}, (old["total"], new["total"]),
            {path: pair for path, pair in listed.items() if pair[0] != pair[1]})
