"""Callers in threads: the logs that their calls may have."""
import re

from parts.common.running import SERIAL, THREADED, ZEROS, run

ONE_KEY = b"caller 1000\nadd-key " + b"07" * 32 + b"\n"
KEY, IDENTIFIER = "07" * 32, "1101420d499290b005fc681527257159"


def claims_replayed(log):
    """Whether the lines, in order of place, report what one set of claims on the key answers; and the calls
    by caller."""
    claims, calls = set(), {}
    for place, line in enumerate(log.splitlines()):
        asked, reply = line.split(" = ")
        number, caller, user, call = asked.split(" ")[:4]
        calls.setdefault(caller, []).append(call)
        if call == "add-key":
            claims.add(user)
            due = f"added {IDENTIFIER}"
        elif call == "remove-key":
            claims.discard(user)
            due = f"removed others={int(bool(claims))} busy=0"
        else:
            state = "present" if claims else "absent"
            due = f"status {state} self={int(user in claims)} users={len(claims)}"
        if (int(number), reply) != (place, due):
            return False, calls
    return True, calls


def in_order_of_place(log, commands):
    """A script whose turns are the log's places: at each, the caller whose place it is makes its next call,
    the others idle."""
    callers = [int(line.split(" ")[1]) for line in log.splitlines()]
    sections = []
    for caller, user in enumerate(range(1000, 1008)):
        left = iter(commands)
        sections.append([f"caller {user}",
                         *(next(left) if turn == caller else "drop-caches" for turn in callers)])
    return "".join(line + "\n" for section in sections for line in section), callers


def threads(tally):
    """Callers in threads: the log is one history, in which each call is answered at its place."""
    commands = ["add-key " + KEY, "key-status raw:" + KEY, "remove-key raw:" + KEY, "key-status raw:" + KEY]
    users = range(1000, 1008)
    script = "".join(f"caller {user}\n" + "".join(command + "\n" for command in commands) for user in users)
    for number in range(10):
        status, got, _ = run(THREADED, script.encode())
        is_history, calls = claims_replayed(got.decode())
        each = ["add-key", "key-status", "remove-key", "key-status"]
        tally.wants(f"eight users share a key in threads, run {number}", status == 0 and is_history)
        tally.wants(f"each caller's calls come once and in order, run {number}",
                    calls == {str(number): each for number in range(8)})
        told = got.decode()
        tally.wants(f"the last removal of run {number} leaves no other claim",
                    re.findall(r" = removed others=(\d) busy=0\n", told)[-1:] == ["0"])
        script_of_places, callers = in_order_of_place(told, commands)
        _, again, _ = run(SERIAL, script_of_places.encode())
        lines_again = again.decode().splitlines()[:8 * len(callers)]
        replayed_lines = [lines_again[8 * place + caller].split(" ", 1)[1] for place,
                          caller in enumerate(callers)]
        tally.wants(f"in turns the calls of run {number} are answered alike, in order of their places",
                    replayed_lines == [line.split(" ", 1)[1] for line in told.splitlines()])
    for names in (["create /f", "open /f"],
                  ["add-key " + KEY, "mkdir /e", f"set-policy /e raw:{KEY} 32", "create /e/f", "open /e/f"]):
        path = names[-1].split(" ")[1]
        fills = [f"fill 0 0 8192 {1 + number % 2}" for number in range(200)]
        reads = [f"open {path}"] * 50 + ["read 0 2048 4096"] * 200
        script = "\n".join(["caller 1000", *names, *fills, "caller 1001", *reads]) + "\n"
        status, got, _ = run(THREADED, script.encode())
        contents = re.findall(r" = data ([0-9a-f]+)\n", got.decode())
        tally.wants(f"each read of {path} beside a writer sees one whole write",
                    status == 0 and all(len(set(re.findall("..", content))) == 1 for content in contents))


def orders(tally):
    """Two callers in threads, one that adds a key and one that asks for it twice, have one of just three
    logs."""
    key = "1101420d499290b005fc681527257159"
    script = ONE_KEY + b"caller 1001\n" + f"key-status id:{key}\n".encode() * 2
    added = f"0 1000 add-key 32 = added {key}"
    absent = f"1 1001 key-status {key} = status absent self=0 users=0"
    present = f"1 1001 key-status {key} = status present self=0 users=1"
    orders = ((added, present, present), (absent, added, present), (absent, absent, added))
    wanted = {"".join(f"{place} {line}\n" for place, line in enumerate(order)) for order in orders}
    for _ in range(20):
        status, log, _ = run(["replay", "--seed", ZEROS], script)
        tally.wants("two callers' log is of one of their orders", status == 0 and log.decode() in wanted,
                    log.decode())


CHECKS = (threads, orders)
