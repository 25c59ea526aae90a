"""What docs/OUTPUT.md says of a table that `lc count --files` printed, and of what standard error then has."""

WORDS = {b"read", b"name", b"twice", b"many", b"long", b"endless"}
REASONS = [b"", b": no such file or directory", b": permission denied"]
# The table of a directory that could not be read.
EMPTY_TABLE = b"ext\ttext\teol\tfiles\tlines\tblank\tbytes\ntotal\t*\t*\t0\t0\t0\t0\ndirectories\t0\nfault\tread\t.\n"


def rows_of(text):
    return [line.split(b"\t") for line in text.split(b"\n")[:-1]]


def sums(rows, columns):
    return [sum(int(row[column]) for row in rows) for column in columns]


def lines_about(directory):
    """The lines on standard error about a directory of this name that can't be read."""
    return [b"lc: cannot read " + directory + reason + b"\n" for reason in REASONS]


def may_tell(err, text, directory):
    """Whether standard error may have this after this table of the directory of this name."""
    told = told_by(text, directory)
    return err == told or told == lines_about(directory)[0] and err in lines_about(directory)


def told_by(text, directory):
    """What standard error has after this table of the directory of this name, which holds nothing that is escaped. If the directory could
    not be read, but can be read when the reason is asked for, the line has no reason."""
    faults = [row for row in rows_of(text) if row[0] == b"fault"]
    if not faults:
        return b""
    if faults[0][2] == b".":
        return b"lc: cannot read " + directory + b"\n"
    if len(faults) == 1:
        return b"lc: 1 path could not be read: see the line that begins with fault\n"
    return b"lc: %d paths could not be read: see the lines that begin with fault\n" % len(faults)


def table_fault(text):
    """What is wrong with a whole table that has file lines, if something is."""
    rows = rows_of(text)
    if not rows or rows[0][0] != b"ext" or not text.endswith(b"\n"):
        return "no table"
    names = [row[0] for row in rows]
    if names.count(b"total") != 1 or names.count(b"directories") != 1:
        return "no total or no directories"
    end = names.index(b"total")
    keys, files = rows[1:end], [row for row in rows[end:] if row[0] == b"file"]
    total = [int(field) for field in rows[end][3:]]
    if sums(keys, (3, 4, 5, 6)) != total:
        return "the keys' sums are not the total"
    if [len(files)] + sums(files, (3, 4, 5)) != total:
        return "the files' sums are not the total"
    if any(row[1] not in WORDS for row in rows[end:] if row[0] == b"fault"):
        return "an unknown fault"
    return None
