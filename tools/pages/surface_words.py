"""What only the surface says of a number, and no source of the crates: more words of C, classes of Python, and what a client never gets.
The sentence of a number is that of the help and of docs/ERRORS.md, in every language."""

# What the codes of a handle mean, which no answer of the program has, if their source says it otherwise.
OF_HANDLES = {
    "Closed": "the store, or the handle, is closed",
    "Opened": "the store is open already",
    "NoHistory": "the store was opened without a history",
    "NoResult": "the handle keeps nothing of that kind",
    "NoRow": "the kept list has no row of that index",
    "NoRoom": "the buffer is too small, and nothing is copied",
    "Untold": "the line was run, but there was no memory for the text of its answer",
}
# What C says of a code after its sentence.
MORE_IN_C = {
    "HistoryFull": "only with a history",
    "Forgotten": "detail: the greatest held number before it, or 0",
    "Full": "detail: which, an enum elephant_limit",
    "BadMoment": "past 253402300799",
}

# What an exception of Python is beside what its kind makes it, and its number of the system.
OWN_BASES = {
    "NoMemory": "MemoryError", "NoEntry": "FileNotFoundError", "NotDirectory": "NotADirectoryError", "IsDirectory": "IsADirectoryError",
    "Exists": "FileExistsError", "Untold": "MemoryError",
}
SYSTEM = {"NoEntry": "ENOENT", "NotDirectory": "ENOTDIR", "IsDirectory": "EISDIR", "Exists": "EEXIST"}

# No call of C returns it: a line is too long only for a script.
NEVER_IN_C = {"LineTooLong"}
# A store of Python is open, and it reads just the rows that there are.
NEVER_IN_PYTHON = {"Opened", "NoResult", "NoRow", "NoRoom"}
# In Rust a store is open as long as it lives.
NEVER_IN_RUST = {"Closed", "Opened", "NoResult", "NoRow", "NoRoom"}
# Calls that the Rust crate doesn't make: a store is opened with limits, and closed as it is dropped.
UNUSED_IN_RUST = {"elephant_open_largest", "elephant_close"}
# Codes with a detail: their variants and classes are written by hand.
BY_HAND = {"Forgotten", "Full"}
# The numbers that Python's code names, and those without an error that Rust's does.
NAMED_IN_PYTHON = ["NoEntry", "NoResult"]
NAMED_IN_RUST = {"NoResult"}

# What docs/SCRIPT.md says of a limit in place of the help. `{makers}` are the commands that raise its count.
LIMITS_OF_SCRIPT = {
    "directories": "directories ever made, without the root",
    "names": "names ever made: one by each {makers}, and by a `save` or `restore` that makes one",
    "versions": "versions ever made, and open drafts",
}


def in_c(name: str, sentence: str) -> str:
    more = MORE_IN_C.get(name)
    return f"{sentence}; {more}" if more else sentence


def full_stop(sentence: str) -> str:
    """Returns a sentence as it stands alone."""
    return upper(sentence).rstrip(".") + ("." if not sentence.endswith(".") else sentence[len(sentence.rstrip(".")):])


def upper(text: str) -> str:
    return text[:1].upper() + text[1:]
