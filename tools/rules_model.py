"""docs/RULES.md, docs/OUTPUT.md and the census once more, by regular expressions: what tools/test-fuzz compares the program with."""

import re
from typing import NamedTuple

MOST_RULES = 1 << 20
CLASSES = {
    b"alpha": lambda b: chr(b).isalpha(), b"lower": lambda b: chr(b).islower(), b"upper": lambda b: chr(b).isupper(),
    b"digit": lambda b: 48 <= b <= 57, b"xdigit": lambda b: chr(b) in "0123456789abcdefABCDEF", b"alnum": lambda b: chr(b).isalnum(),
    b"blank": lambda b: b in b" \t", b"space": lambda b: b == 32 or 9 <= b <= 13, b"cntrl": lambda b: b < 32 or b == 127,
    b"graph": lambda b: 33 <= b <= 126, b"print": lambda b: 32 <= b <= 126, b"punct": lambda b: 33 <= b <= 126 and not chr(b).isalnum(),
}


class Dead(Exception):
    """The pattern is dead: it matches nothing."""


def set_of(members, negated):
    members = [b for b in range(256) if b != 47 and (b in members) != negated]
    return b"[" + b"".join(b"\\x%02x" % b for b in members) + b"]" if members else b"(?!)"


def bracket(text, at):
    """Reads a bracket whose first byte stands before `at`: its regular expression, and where the pattern goes on."""
    negated = text[at:at + 1] in (b"!", b"^") and at < len(text)
    at += negated
    members, first = set(), True
    while True:
        if at >= len(text):
            raise Dead
        if text[at] == 93 and not first:
            return set_of(members, negated), at + 1
        first = False
        if text[at:at + 2] == b"[:":
            close = text.find(b"]", at + 2)
            if close < 0:
                raise Dead
            if text[close - 1] == 58 and close - 1 > at + 1:
                name = text[at + 2:close - 1]
                if name not in CLASSES:
                    raise Dead
                members |= {b for b in range(128) if CLASSES[name](b)}
                at = close + 1
                continue
        low, at = element(text, at)
        if text[at:at + 1] == b"-" and at + 1 < len(text) and text[at + 1] != 93:
            high, at = element(text, at + 1)
            members |= {low, *range(low, high + 1)}
        else:
            members.add(low)


def element(text, at):
    at += text[at] == 92
    if at >= len(text):
        raise Dead
    return text[at], at + 1


def tokens(text):
    """The tokens of a pattern: "/", "*", or the regular expression of one byte."""
    at, found = 0, []
    while at < len(text):
        byte = text[at:at + 1]
        at += 1
        if byte == b"\\":
            if at == len(text):
                raise Dead
            byte = text[at:at + 1]
            at += 1
            found.append("/" if byte == b"/" else b"\\x%02x" % byte[0])
        elif byte == b"[":
            one, at = bracket(text, at)
            found.append(one)
        elif byte in (b"/", b"*"):
            found.append(byte.decode())
        else:
            found.append(b"[^/]" if byte == b"?" else b"\\x%02x" % byte[0])
    return found


class Pattern:
    def __init__(self, text):
        self.dir_only, self.regex = False, None
        try:
            found = tokens(text)
        except Dead:
            return
        if found and found[-1] == "/":
            found.pop()
            self.dir_only = True
        anchored = bool(found) and found[0] == "/"
        if anchored:
            found.pop(0)
        segments = [[]]
        for token in found:
            if token == "/":
                segments.append([])
            else:
                segments[-1].append(token)
        if not all(segments):
            return
        anchored = anchored or len(segments) > 1
        whole = b"" if anchored else b"(?:.*/)?"
        for number, segment in enumerate(segments):
            is_last = number == len(segments) - 1
            if anchored and segment == ["*", "*"]:
                whole += b"[^/]+(?:/[^/]+)*" if is_last else b"(?:[^/]+/)*"
                continue
            previous = None
            for token in segment:
                if token != "*" or previous != "*":
                    whole += b"[^/]*" if token == "*" else token
                previous = token
            whole += b"" if is_last else b"/"
        self.regex = re.compile(whole, re.DOTALL)

    def matches(self, path, is_dir):
        return self.regex is not None and (is_dir or not self.dir_only) and self.regex.fullmatch(path) is not None


def lines_of(text):
    text = text[3:] if text.startswith(b"\xef\xbb\xbf") else text
    lines = text.split(b"\n")
    return lines if lines[-1] else lines[:-1]


def without_spaces(line):
    """Trailing spaces go, but those that a backslash quotes."""
    at, end = 0, 0
    while at < len(line):
        step = 2 if line[at] == 92 and at + 1 < len(line) else 1
        if step == 2 or line[at] != 32:
            end = at + step
        at += step
    return line[:end]


def rule_lines(text):
    """The lines of an ignore file that give rules: the number of each, its text, whether it is negated, and its pattern."""
    rules = []
    for number, line in enumerate(lines_of(text), 1):
        line = without_spaces(line[:-1] if line.endswith(b"\r") else line)
        if line and not line.startswith(b"#"):
            negated = line.startswith(b"!")
            rules.append((number, line, negated, Pattern(line[negated:])))
    return rules


def escaped(text):
    return b"".join(b"\\\\" if b == 92 else b"\\x%02x" % b if b < 32 or b == 127 else bytes([b]) for b in text)


def deciding(rules, path, is_dir):
    """The last of these lines that matches, if any does."""
    return next((rule for rule in reversed(rules) if rule[3].matches(path, is_dir)), None)


def answer(rules, line):
    """What these lines say of a line of paths, and the one that decides."""
    path = line[:-1] if line.endswith(b"/") else line
    segments = path.split(b"/")
    if len(path) > 4096 or b"\0" in path or any(it in (b"", b".", b"..") for it in segments):
        return b"bad", None
    for end in range(1, len(segments)):
        rule = deciding(rules, b"/".join(segments[:end]), True)
        if rule and not rule[2]:
            return b"below", rule
    rule = deciding(rules, path, line.endswith(b"/"))
    return b"none" if not rule else b"included" if rule[2] else b"ignored", rule


def check_text(text, lines):
    """What `lc check` prints of these lines of paths, by a file of this text."""
    rules = rule_lines(text)
    return b"".join(answer(rules, line)[0] + b"\t" + escaped(line) + b"\n" for line in lines)


def explained_text(name, text, lines):
    """What `lc check --explain NAME` prints of them."""
    rules, printed = rule_lines(text), []
    for line in lines:
        word, rule = answer(rules, line)
        where = [escaped(name) + b":%d" % rule[0], escaped(rule[1])] if rule else [b"-", b"-"]
        printed.append(b"\t".join([word, *where, escaped(line)]) + b"\n")
    return b"".join(printed)


# Attributes: a state is b"set", b"unset", b"unspecified" or b"=" and a value.
NAME = re.compile(rb"[A-Za-z0-9._][A-Za-z0-9._-]*")
QUOTED = re.compile(rb'"((?:[^"\\]|\\[abfnrtv\\"]|\\[0-3][0-7][0-7])*)"', re.DOTALL)
QUOTES = dict(zip(b"abfnrtv\\\"", b"\a\b\f\n\r\t\v\\\""))


def unquoted(text):
    return re.sub(rb"\\([0-7]{3}|.)", lambda it: bytes([int(it[1], 8) if len(it[1]) == 3 else QUOTES[it[1][0]]]), text, flags=re.DOTALL)


def assignment(word):
    sign = word[:1] if word[:1] in (b"-", b"!") else b""
    name, equals, value = word[len(sign):].partition(b"=")
    if not NAME.fullmatch(name):
        return None
    return name, {b"-": b"unset", b"!": b"unspecified"}.get(sign, b"=" + value if equals else b"set")


def attribute_lines(text, is_top):
    """The lines with patterns, and the macros, of an attribute file."""
    lines, macros = [], {}
    for line in lines_of(text):
        line = line.strip(b" \t\r")
        if not line or line.startswith(b"#"):
            continue
        macro = None
        if line.startswith(b'"'):
            quoted = QUOTED.match(line)
            if not quoted:
                continue
            pattern, rest = unquoted(quoted[1]), line[quoted.end():]
        else:
            pattern = re.match(rb"[^ \t\r]*", line)[0]
            rest = line[len(pattern):]
            macro = pattern[6:] if pattern.startswith(b"[attr]") and len(pattern) > 6 else None
        words = [assignment(word) for word in re.split(rb"[ \t\r]+", rest) if word]
        if None in words or macro is None and pattern.startswith(b"!"):
            continue
        if macro is None:
            lines.append((Pattern(pattern), words))
        elif is_top and NAME.fullmatch(macro):
            macros[macro] = words
    return lines, macros


def attributes_of(lines, macros, path, is_dir):
    """The states of all names: `lines` are triples, the one that decides last at the end."""
    states = {}

    def read(words):
        for name, state in reversed(words):
            if name not in states:
                states[name] = state
                if state == b"set" and name in macros:
                    read(macros[name])

    for offset, pattern, words in reversed(lines):
        if pattern.matches(path[offset:], is_dir):
            read(words)
    return states


# The census, and the table.
def census(data):
    """Lines, blank lines, bytes and the class of the line ends."""
    ends = set(re.findall(rb"\r\n|\n|\r", data))
    texts = re.split(rb"\r\n|\n|\r", data)
    texts = texts if texts[-1] else texts[:-1]
    names = {b"\n": "lf", b"\r\n": "crlf", b"\r": "cr"}
    eol = "nul" if b"\0" in data else "none" if not ends else names[ends.pop()] if len(ends) == 1 else "mixed"
    return len(texts), sum(not text.strip(b" \t") for text in texts), len(data), eol


def text_state(state):
    return {b"set": "set", b"unset": "unset", b"=auto": "auto", b"unspecified": "-"}.get(state, "other")


def state_order(state):
    """Where a state stands in the order of rows: unspecified, set, unset, then values."""
    return (3, state[1:]) if state.startswith(b"=") else ([b"unspecified", b"set", b"unset"].index(state), b"")


def state_word(state):
    return escaped(state[1:]) if state.startswith(b"=") else {b"unspecified": b"-"}.get(state, state)


def extension(path):
    name = path.rpartition(b"/")[2]
    dot = name.rfind(b".")
    return name[dot + 1:] if dot > 0 and dot + 1 < len(name) else None


class Fault(Exception):
    """What can't be read of a directory, by its path."""


class Rule(NamedTuple):
    """A rule of a tree: how many bytes of a path its file doesn't see, where it stands, the text of its line, what it means."""

    offset: int
    place: bytes
    text: bytes
    negated: bool
    pattern: Pattern

    def matches(self, path, is_dir):
        return self.pattern.matches(path[self.offset:], is_dir)


def rules_in_file(text, offset, name):
    return [Rule(offset, name + b":%d" % number, *rest) for number, *rest in rule_lines(text)]


def deciding_rule(rules, path, is_dir):
    """The last of the rules of a tree that matches, if any does."""
    return next((rule for rule in reversed(rules) if rule.matches(path, is_dir)), None)


class Here(NamedTuple):
    """What holds in a directory: the rules, the attribute lines and the macros, its own among them."""

    rules: list
    lines: list
    macros: dict


BUILT_IN = {b"binary": [(b"diff", b"unset"), (b"merge", b"unset"), (b"text", b"unset")]}


class Tree:
    """A tree: a dictionary of names, a folder a dictionary, a file its bytes, anything else None.

    `without` has attributes: what has one of them Set is left out. `failing` has what can't be read: pairs of "list" and a directory's
    path, "rules" or "count" and a file's. `lowest` is the text of the attribute file that each other one overrides. `asked` has the
    attributes that rows are by.
    """

    def __init__(self, tree, without=(), exclude=b"", failing=(), lowest=b"", asked=()):
        self.tree, self.without, self.exclude, self.failing, self.lowest, self.asked = tree, without, exclude, failing, lowest, asked
        self.info, self.info_macros, self.attribute_files = [], {}, []

    def top(self):
        """What holds in the top."""
        info = self.info_of()
        rules = rules_in_file(self.exclude, 0, b"--exclude-from")
        rules += rules_in_file(self.rules_in(info, b".git/info/", b"exclude"), 0, b".git/info/exclude")
        self.attribute_files.append(self.rules_in(info, b".git/info/", b"attributes"))
        self.info, self.info_macros = attribute_lines(self.attribute_files[0], True)
        self.attribute_files.append(self.lowest)
        lowest, macros = attribute_lines(self.lowest, True)
        return self.inside(self.tree, b"", Here(rules, [(0, *line) for line in lowest], {**BUILT_IN, **macros}))

    def info_of(self):
        """The entries of .git/info, none where that is no directory."""
        found = self.tree
        for path, name in ((b".", b".git"), (b".git", b"info"), (b".git/info", None)):
            self.ask("list", path)
            if name is not None:
                found = found.get(name)
                if not isinstance(found, dict):
                    return {}
        return found

    def ask(self, what, path):
        if (what, path) in self.failing:
            raise Fault(path)

    def rules_in(self, entries, above, name):
        if not isinstance(entries.get(name), bytes):
            return b""
        self.ask("rules", above + name)
        return entries[name]

    def inside(self, entries, above, here):
        """What holds in a directory that stands in one where `here` holds."""
        self.ask("list", above[:-1] or b".")
        rule_file, attribute_file = (self.rules_in(entries, above, name) for name in (b".gitignore", b".gitattributes"))
        self.attribute_files.append(attribute_file)
        offset = len(above)
        own, own_macros = attribute_lines(attribute_file, not above)
        return Here(here.rules + rules_in_file(rule_file, offset, escaped(above) + b".gitignore"),
                    here.lines + [(offset, *line) for line in own], {**here.macros, **own_macros})

    def unnamed(self):
        """The lines of standard error about attributes of `without` or `asked` that no attribute file has."""
        missing = [it for it in [*self.without, *self.asked] if not any(it in text for text in self.attribute_files)]
        return b"".join(b"lc: no attribute file names " + escaped(it) + b"\n" for it in missing)

    def states(self, here, path, is_dir):
        return attributes_of(here.lines + [(0, *line) for line in self.info], {**here.macros, **self.info_macros}, path, is_dir)

    def reason(self, here, path, is_dir, is_other):
        """Why an entry is left out, as two fields of a line, or None; and the rule that decides, if one does."""
        if path.rpartition(b"/")[2] == b".git":
            return (b"git", b"-"), None
        rule = deciding_rule(here.rules, path, is_dir)
        if rule and not rule.negated:
            return (b"rule", rule.place), rule
        states = self.states(here, path, is_dir)
        attribute = next((it for it in self.without if states.get(it) == b"set"), None)
        if attribute is not None:
            return (b"attribute", attribute), rule
        return (b"other", b"-") if is_other else None, rule


def undotted(line):
    """A line without `./` at its beginning, as often as it is there; `.` if nothing else is left."""
    rest = re.sub(rb"^(?:\./+)+", b"", line)
    return rest or line[:1]


class Explained(Tree):
    """What `lc explain` says of paths."""

    def text(self, lines):
        """What is printed of these lines of paths. What failed once is read where it is asked for again."""
        printed = []
        for line in lines:
            printed.append(self.line(line))
            if printed[-1].startswith(b"fault"):
                self.failing = ()
        return b"".join(printed)

    def line(self, line):
        """What is printed of a line of paths."""
        asked = undotted(line)
        path = asked[:-1] if asked.endswith(b"/") else asked
        names = path.split(b"/")
        if path == b".":
            found = [b"none", b"-", b"-"]
        elif len(path) > 4096 or b"\0" in path or any(it in (b"", b".", b"..") for it in names):
            found = [b"bad", b"-", b"-"]
        else:
            try:
                found = self.found(names, asked.endswith(b"/"))
            except Fault as fault:
                return b"\t".join([b"fault", b"read", b"-", escaped(fault.args[0])]) + b"\n"
        return b"\t".join([*found, escaped(line)]) + b"\n"

    def found(self, names, as_dir):
        here, entries = self.top(), self.tree
        for number, name in enumerate(names, 1):
            path, is_last = b"/".join(names[:number]), number == len(names)
            there = entries.get(name, b"")
            is_dir = isinstance(there, dict) or there is not None and (as_dir or not is_last)
            reason, rule = self.reason(here, path, is_dir, there is None)
            if reason and reason[0] == b"rule":
                return [b"ignored" if is_last else b"below", rule.place, escaped(rule.text)]
            if reason:
                return [b"left", b":".join(reason) if reason[0] == b"attribute" else reason[0], b"-"]
            if not is_last:
                entries = there if isinstance(there, dict) else {}
                here = self.inside(entries, path + b"/", here) if isinstance(there, dict) else here
        return [b"included", rule.place, escaped(rule.text)] if rule else [b"none", b"-", b"-"]


class Walk(Tree):
    """The recursive walk of a tree, or where `only` has paths of what stands at or below one of them."""

    def __init__(self, tree, without=(), exclude=b"", failing=(), only=(), lowest=b"", asked=()):
        super().__init__(tree, without, exclude, failing, lowest, asked)
        self.only, self.asked_of = set(only), {}
        self.files, self.faults, self.absent, self.left, self.directories, self.entries = [], [], [], [], 0, 0
        try:
            here = self.top()
        except Fault as fault:
            self.faults.append(fault.args[0])
            return
        self.level(tree, b"", here)

    def walk(self, entries, above, here):
        try:
            here = self.inside(entries, above, here)
        except Fault as fault:
            self.faults.append(fault.args[0])
            return
        self.level(entries, above, here)

    def leads(self, path, is_dir, asked):
        """Whether an entry stands at a path that is asked for, or is a directory above it."""
        return path == asked or is_dir and asked.startswith(path + b"/")

    def takes_part(self, path, is_dir):
        return not self.only or any(self.leads(path, is_dir, it) or path.startswith(it + b"/") for it in self.only)

    def level(self, entries, above, here):
        self.directories += 1
        kinds = [(above + name, isinstance(entry, dict)) for name, entry in entries.items()]
        self.absent += [it for it in self.only if it.startswith(above) and not any(self.leads(*one, it) for one in kinds)]
        for name, entry in entries.items():
            path, is_dir = above + name, isinstance(entry, dict)
            if not self.takes_part(path, is_dir):
                continue
            self.entries += 1
            reason, _ = self.reason(here, path, is_dir, entry is None)
            if reason:
                self.left.append((path, path + b"/" if is_dir and name != b".git" else path, *reason))
            elif is_dir:
                self.walk(entry, path + b"/", here)
            elif ("count", path) in self.failing:
                self.faults.append(path)
            else:
                states = self.states(here, path, is_dir)
                self.asked_of[path] = [states.get(it, b"unspecified") for it in self.asked]
                self.files.append((path, text_state(states.get(b"text", b"unspecified")), *census(entry)))

    def key(self, path, text, eol):
        """The order of a file's row among the rows, and what the row begins with."""
        if self.asked:
            return [state_order(it) for it in self.asked_of[path]], [*map(state_word, self.asked_of[path]), b"*", b"*", b"*"]
        found = extension(path)
        order = [found is not None, found or b"", ["set", "unset", "auto", "other", "-"].index(text),
                 ["none", "lf", "crlf", "cr", "mixed", "nul"].index(eol)]
        return order, [b"-" if found is None else b"." + escaped(found), text.encode(), eol.encode()]

    def table(self, left_out=False):
        rows, total = {}, [0, 0, 0, 0]
        for path, text, lines, blank, size, eol in self.files:
            order, words = self.key(path, text, eol)
            _, row = rows.setdefault(tuple(order), (words, [0, 0, 0, 0]))
            for sums in (row, total):
                for column, more in enumerate((1, lines, blank, size)):
                    sums[column] += more
        columns = [*(b"attr:" + it for it in self.asked), b"ext", b"text", b"eol"]
        out = [b"\t".join([*columns, b"files", b"lines", b"blank", b"bytes"])]
        lines = [rows[order] for order in sorted(rows)] + [([b"total", *[b"*"] * (len(columns) - 1)], total)]
        out += [b"\t".join([*words, *(b"%d" % it for it in sums)]) for words, sums in lines]
        out.append(b"directories\t%d" % self.directories)
        if left_out:
            out.append(b"entries\t%d" % self.entries)
        for path, text, lines, blank, size, eol in sorted(self.files):
            out.append(b"\t".join([b"file", text.encode(), eol.encode(), *(b"%d" % it for it in (lines, blank, size)), escaped(path)]))
        if left_out:
            out += [b"\t".join([b"left", why, where, escaped(printed)]) for _, printed, why, where in sorted(self.left)]
        faults = [(path, b"read") for path in self.faults] + [(path, b"absent") for path in self.absent]
        out += [b"fault\t" + word + b"\t" + escaped(path) for path, word in sorted(faults)]
        return b"\n".join(out) + b"\n"
