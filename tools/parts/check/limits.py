"""What a mount has only that many of: handles, blocks of files, records. One more of each is refused, and
room that is made serves again."""
from parts.common.running import SERIAL, run

MAX_HANDLES, MAX_RECORDS, FILES, FILLS = 4_096, 1_024, 64, 16
NO_SPACE = "refused no-space"

OPENED = [("create /f", "ok"), *(("open /f", f"handle {number}") for number in range(MAX_HANDLES)),
          ("open /f", NO_SPACE), ("close 7", "ok"), ("open /f", f"handle {MAX_HANDLES}"),
          ("open /f", NO_SPACE)]

# 64 files of 256 blocks each
FILLED = [
    *(step for number in range(FILES) for step in (
        (f"create /f{number}", "ok"), (f"open /f{number}", f"handle {number}"),
        *((f"fill {number} {65_536 * at} 65536 7", "ok") for at in range(FILLS)))),
    ("create /more", "ok"), ("open /more", f"handle {FILES}"), (f"write {FILES} 0 61", NO_SPACE),
    ("write 0 4096 61", "ok"),
    ("unlink /f0", "ok"), (f"write {FILES} 0 61", NO_SPACE), ("close 0", "ok"),
    *((f"fill {FILES} {65_536 * at} 65536 7", "ok") for at in range(FILLS)),
    ("create /one-more", "ok"), ("open /one-more", f"handle {FILES + 1}"),
    (f"fill {FILES + 1} 0 1 7", NO_SPACE),
]

STORED = [*((f"meta-put protector/p{number} 0 61", "stored 1") for number in range(MAX_RECORDS)),
          ("meta-put protector/more 0 61", NO_SPACE), ("meta-put protector/more 1 61", "refused changed 0"),
          ("meta-put protector/p7 1 62", "stored 2")]


def used_up(tally):
    """Each limit that a script reaches: as many as may be, one more, and what is freed."""
    for what, cases in (("handles", OPENED), ("blocks", FILLED), ("records", STORED)):
        script = "caller 1000\n" + "".join(command + "\n" for command, _ in cases)
        status, log, _ = run(SERIAL, script.encode())
        replies = [line.split(" = ")[1] for line in log.decode().splitlines()]
        wrong = [(command, due, told) for (command, due), told in zip(cases, replies) if due != told]
        tally.wants(f"a run that uses up {what} is answered so",
                    status == 0 and len(replies) == len(cases) and not wrong, str(wrong[:1]))


CHECKS = (used_up,)
