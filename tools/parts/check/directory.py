"""A directory with as many encrypted names as it can have."""
from parts.common.running import SERIAL, run

KEY, IDENTIFIER = "07" * 32, "1101420d499290b005fc681527257159"
MAX_ENTRIES, PAGE = 4_096, 128


def full_directory(tally):
    """An encrypted directory takes 4,096 names, is listed whole with and without its key, and is emptied
    without it."""
    names = [f"name-{number:04}" for number in range(MAX_ENTRIES)]
    pages = [f"list /d {start}" for start in range(0, MAX_ENTRIES, PAGE)]
    emptied = (["list /d 0"] + [f"unlink /d/*{number}" for number in range(PAGE)]) * len(pages)
    commands = ["add-key " + KEY, "mkdir /d", f"set-policy /d raw:{KEY} 32",
                *(f"create /d/{name}" for name in reversed(names)),
                "create /d/one-more", *pages, f"remove-key raw:{KEY}", *pages, *emptied, "list /d 0",
                "rmdir /d"]
    status, got, _ = run(SERIAL, ("caller 1000\n" + "\n".join(commands) + "\n").encode())
    replies = [line.split(" = ")[1] for line in got.decode().splitlines()]
    tally.wants("a run on a full directory ends", status == 0 and len(replies) == len(commands),
                f"it ended with {status}")
    if len(replies) != len(commands):
        return
    made, behind = replies[3:3 + MAX_ENTRIES], replies[3 + MAX_ENTRIES:]
    tally.wants("4,096 names are made, and no 4,097th",
                set(made) == {"ok"} and behind[0] == "refused no-space", behind[0])
    listed = behind[1:1 + len(pages)]
    locked = behind[2 + len(pages):2 + 2 * len(pages)]
    for what, told in (("with its key", listed), ("without its key", locked)):
        ends = [line.split(" ")[1:3] for line in told]
        tally.wants(f"a full directory is listed by pages {what}",
                    ends == [["128", "more=1"]] * 31 + [["128", "more=0"]])
    found = [name for line in listed for name in line.split(" ")[3:]]
    tally.wants("with its key its names are listed, in order", found == names)
    texts = [text for line in locked for text in line.split(" ")[3:]]
    tally.wants("without its key a text is listed for each, in order",
                texts == sorted(set(texts)) and len(texts) == MAX_ENTRIES and not set(texts) & set(names))
    gone = behind[2 + 2 * len(pages):]
    unlinked = [line for number, line in enumerate(gone[:-2]) if number % (1 + PAGE)]
    tally.wants("each name is removed by its text",
                len(unlinked) == MAX_ENTRIES and set(unlinked) == {"ok"})
    tally.wants("the directory is empty then, and is removed", gone[-2:] == ["names 0 more=0", "ok"],
                str(gone[-2:]))


CHECKS = (full_directory,)
