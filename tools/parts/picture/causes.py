"""Why a call was refused, and what to do: the rows of docs/ANSWERS.md that speak of it."""
import os
import re

from parts import TOP

PAGE = os.path.join(TOP, "docs", "ANSWERS.md")
# the call of each verb of a log in the words of docs/ANSWERS.md
CALLS = {
    "add-key": "AddKey", "remove-key": "RemoveKey", "remove-key-all": "RemoveKeyAll",
    "key-status": "KeyStatus", "set-policy": "SetPolicy", "get-policy": "GetPolicy", "mkdir": "Mkdir",
    "create": "Create",
    "symlink": "Symlink", "readlink": "ReadLink", "unlink": "Unlink", "rmdir": "Rmdir", "rename": "Rename",
    "list": "List", "stat": "Stat", "open": "OpenNode", "read": "Read", "write": "Write", "close": "Close",
    "drop-caches": "DropCaches", "meta-get": "MetaLoad", "meta-put": "MetaStore",
}
WITH_PATH = {"SetPolicy", "GetPolicy", "Mkdir", "Create", "Symlink", "ReadLink", "Unlink", "Rmdir", "Rename",
             "List", "Stat", "OpenNode"}


def refusal_rows():
    """The rows of docs/ANSWERS.md on refusals: name, calls, cause, what to do."""
    with open(PAGE, encoding="utf-8") as file:
        text = file.read()
    part = text.split("## Refusals in a reply")[1].split("\n## ")[0]
    for line in part.splitlines():
        cells = [part.strip() for part in line.strip("|").split("|")]
        if len(cells) == 5 and cells[0].startswith("`"):
            yield cells[0].strip("`"), cells[2], cells[3], cells[4]


def speaks_of(calls, call):
    """Whether a row's calls have this one: by its name, as one with a path, or as one that takes memory."""
    named, _, others = calls.partition(": not ")
    if re.search(rf"\b{call}\b", named) or ("each call with a path" in named and call in WITH_PATH):
        return True
    return "each call that takes memory" in named and not re.search(rf"\b{call}\b", others)


def causes(rows, entry):
    """The causes of the entry's refusal, each with what to do."""
    call = CALLS.get(entry.verb, "")
    for name, calls, cause, advice in rows:
        if name == entry.refusal() and speaks_of(calls, call):
            yield cause + (f": {advice}" if advice else "")
