"""Which names a crate gives to others, and which type or trait a function belongs to: what the scripts over the crates share."""

import pathlib
import re

TOP = pathlib.Path(__file__).resolve().parent.parent
# The head of an impl or of a trait, whose type parameters have bounds with arguments of their own: which of both it is, and of what.
OWNER = r"^(?:pub(?:\(crate\))? )?(trait|impl)\b(?:<(?:[^<>]|<[^<>]*>)*>)?\s*([^{]*)"


def crates():
    """The folders of the crates but those of tests alone."""
    return sorted(it for it in (TOP / "crates").iterdir() if it.is_dir() and not it.name.endswith("_tests"))


def exported(folder):
    """The names and the modules that a library gives to others; None for a program."""
    lib = folder / "src" / "lib.rt"
    if not lib.exists():
        return None
    text = lib.read_text()
    names = {name for use in re.findall(r"^pub use ([^;]*);", text, re.M | re.S) for name in re.findall(r"\b\w+\b(?!::)", use)}
    return names | set(re.findall(r"^pub mod (\w+);", text, re.M))


def owner_in(kind, head):
    """The type or the trait that a line `impl ..` or `trait ..` is of, and whether its functions are a trait's."""
    is_trait = kind == "trait" or " for " in head
    return re.match(r"\w+", head.split(" for ")[0].strip())[0], is_trait


def is_seen(public, name, file):
    """Whether others may name it: a name or a module that the library gives, or anything of a program."""
    return public is None or name in public or file.stem in public and file.parent.name == "src"
