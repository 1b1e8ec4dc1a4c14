"""The image of a run's mount, and what it shows with a key and without one, beside what is made of script
and log outside."""
import random
from hashlib import sha256

from parts.check.disk import disk_behind
from parts.check.image_text import image_of, listing, read
from parts.check.linux_stored import linux_image
from parts.common.running import ZEROS, run, scripts

DUMP = ["dump", "--seed", ZEROS]
SEED = bytes.fromhex(ZEROS)
RAW = bytes(range(64))
IDENTIFIER = "8699c2c53707405da5aba5ae4d8583c0"
MAX_IMAGE = 268_435_456
CHANGED, BAD_LINE, TOO_LONG, PIECE = 200, 3, 7, 1 << 20


def inspected(raw=None):
    """The words that list an image, with this raw key or with none."""
    return ["inspect"] if raw is None else ["inspect", "raw:" + raw.hex()]


def lists(tally, what, image, raws):
    """Lists an image without a key and with each of some, as it is listed outside of the program."""
    nodes, line = read(image)
    for raw in [None, *raws]:
        status, got, told = run(inspected(raw), image)
        shown = f"{what}, {'with a key' if raw else 'without one'}"
        if nodes is None:
            well = (status, got) == (BAD_LINE, b"") and told.startswith(f"fsc: bad line {line}\n".encode())
            tally.wants(f"{shown}, is at fault at line {line}", well, repr((status, told)))
        else:
            tally.wants(f"{shown}, is listed", (status, got) == (0, listing(nodes, raw)),
                        repr((status, got[:200])))


def dumps(tally, what, script, log):
    """Dumps a script whose log this is, and lists the image."""
    disk = disk_behind(script, log, SEED)
    image = image_of(disk)
    status, got, _ = run(DUMP, script)
    tally.wants(f"the image after {what} is the one made outside", (status, got) == (0, image),
                repr((status, got[:200])))
    lists(tally, f"the image after {what}", image, [*disk.raws.values()][:2])
    return image


def examples_dumped(tally):
    """Each script of examples/ and of its rows."""
    for path in scripts():
        with open(path, "rb") as script, open(path[:-4] + ".log", "rb") as log:
            dumps(tally, path, script.read(), log.read())


ENCRYPTED = [("mkdir /e", "ok"), (f"add-key {RAW.hex()}", f"added {IDENTIFIER}"),
             (f"set-policy /e id:{IDENTIFIER} 32", "ok")]
POLICY = f"0201040300000000{IDENTIFIER}"


def call_of(command):
    """The text of the call that a command makes, where it isn't the command's own."""
    words = command.split(" ")
    return {"add-key": f"add-key {len(RAW)}", "set-policy": f"set-policy /e {POLICY}",
            "fill": " ".join(["write", *words[1:4]])}.get(words[0], command)


def logged(commands):
    """A script of one caller and its log, from commands with their replies."""
    script = "caller 1000\n" + "".join(f"{command}\n" for command, _ in commands)
    log = "".join(f"{place} 0 1000 {call_of(command)} = {reply}\n" for place,
                  (command, reply) in enumerate(commands))
    return script.encode(), log.encode()


def large_trees(tally):
    """A full directory, a file of a mebibyte, and a chain of 32 directories, in plain and under a policy."""
    fills = [(f"fill 0 {65_536 * at} 65536 {at}", "ok") for at in range(16)]
    for what, top, front in (("in plain", "", []), ("under a policy", "/e", ENCRYPTED)):
        cases = [
            ("a full directory",
             [("mkdir " + top + "/d", "ok"), *((f"create {top}/d/{at}", "ok") for at in range(4_096))]),
            ("a file of a mebibyte", [(f"create {top}/f", "ok"), (f"open {top}/f", "handle 0"), *fills]),
            ("a chain of directories", [(f"mkdir {top}{'/a' * depth}", "ok") for depth in range(1, 32)]),
        ]
        for name, commands in cases:
            dumps(tally, f"{name} {what}", *logged([*front, *commands]))


def worked_rows(tally):
    """Images and listings whose whole text is known."""
    digest = sha256(b"hi").hexdigest()
    block = b"hi".ljust(4_096, b"\0").hex()
    plain = f"fsc-image 1\nnode 0 dir -\nentry 1 70\nnode 1 file - 2\nblock {block}\n"
    status, got, _ = run(DUMP, b"")
    tally.wants("the empty script leaves a root", (status, got) == (0, b"fsc-image 1\nnode 0 dir -\n"),
                repr(got))
    status, got, _ = run(DUMP, b"caller 1000\ncreate /p\nopen /p\nwrite 0 0 6869\n")
    tally.wants("a file of two bytes has a block", (status, got) == (0, plain.encode()), repr(got[:200]))
    opened = "caller 1000\n" + "".join(f"{line}\n" for line,
                                       _ in ENCRYPTED) + "create /e/f\nopen /e/f\nwrite 0 0 6869\n"
    _, encrypted, _ = run(DUMP, opened.encode())
    shown = "AAAAAAAAAADt-toAXsOsC13lYD9Yl-SqNV1BITUGbWqvIA_UrJGWrQ"
    for what, words, image, wanted in (
            ("a root alone", inspected(), "fsc-image 1\nnode 0 dir -\n", "0 - / dir 0\n"),
            ("a file of two bytes", inspected(), plain, f"0 - / dir 1\n1 0 p file 2 {digest}\n"),
            ("a file with its key", inspected(RAW), encrypted.decode(),
             f"0 - / dir 1\n1 0 e dir 1\n2 1 f file 2 {digest}\n"),
            ("a file without its key", inspected(), encrypted.decode(),
             f"0 - / dir 1\n1 0 e dir 1\n2 1 {shown} file 2 -\n"),
            ("a directory that leads to itself", inspected(),
             "fsc-image 1\nnode 0 dir -\nnode 1 dir -\nentry 1 61\n", "0 - / dir 0\n")):
        status, got, _ = run(words, image.encode())
        tally.wants(f"{what} is listed", (status, got) == (0, wanted.encode()), repr(got))


def faulty_images(tally):
    """Texts that are no image, each with its line at fault."""
    root = "fsc-image 1\nnode 0 dir -\n"
    name = "61" * 16
    for what, image, line in (
            ("no text", "", 1), ("the header alone", "fsc-image 1\n", 2),
            ("another version", "fsc-image 2\nnode 0 dir -\n", 1),
            ("no last line feed", root[:-1], 2), ("a line that is none", root + "\n", 3),
            ("a root under a policy", f"fsc-image 1\nnode 0 dir 0201040300000000{name}{name}\n", 2),
            ("a number twice", root + "entry 1 61\nnode 1 dir -\nnode 1 dir -\n", 5),
            ("two entries that lead to one child", root + "entry 1 61\nentry 1 62\nnode 1 dir -\n", 4),
            ("an entry that leads nowhere", root + "entry 2 61\nnode 1 dir -\n", 3),
            ("an entry that leads to the root", root + "entry 0 61\n", 3),
            ("entries out of order", root + "entry 1 62\nentry 2 61\nnode 1 dir -\nnode 2 dir -\n", 4),
            ("a name twice", root + "entry 1 61\nentry 2 61\nnode 1 dir -\nnode 2 dir -\n", 4),
            ("a block that is missing", root + "entry 1 61\nnode 1 file - 1\n", 5),
            ("a block too many", root + "entry 1 61\nnode 1 file - 0\nblock " + "00" * 4_096 + "\n", 5),
            ("a slash in a plain name", root + "entry 1 2f\nnode 1 dir -\n", 3),
            ("a short name under a policy",
             root + f"entry 1 61\nnode 1 dir 0201040300000000{name}{name}\nentry 2 61\nnode 2 dir -\n", 5),
            ("digits in upper case", root + "entry 1 6C\nnode 1 dir -\n", 3),
            ("a policy of flag 4", root + f"entry 1 61\nnode 1 dir 0201040400000000{name}{name}\n", 4),
            ("a file that is too large", root + "entry 1 61\nnode 1 file - 1048577\n", 4),
            ("a bad child before a bad line", root + "entry 5 61\nnode 1 dir - \n", 4)):
        assert read(image.encode())[1] == line, what
        lists(tally, what, image.encode(), [])


def changed_images(tally):
    """An image with bytes changed at drawn places, cut within each line, and with two lines exchanged."""
    with open(next(script for script in scripts() if "mode_keys_leave" in script), "rb") as script:
        _, image, _ = run(DUMP, script.read())
    draws = random.Random(19)
    for _ in range(CHANGED):
        place, byte = draws.randrange(len(image)), draws.choice(b"0123456789abcdef \n-")
        changed = image[:place] + bytes([byte]) + image[place + 1:]
        lists(tally, f"an image whose byte {place} is {byte}", changed, [RAW] if place % 5 == 0 else [])
    lines = image.split(b"\n")[:-1]
    for at in range(len(lines)):
        front = b"".join(line + b"\n" for line in lines[:at])
        for what, text in (("that ends in front of", front), ("cut within", front + lines[at][
            :len(lines[at]) // 2]), ("cut at the end of", front + lines[at])):
            lists(tally, f"an image {what} line {at + 1}", text, [])
        for other in range(at):
            swapped = [*lines]
            swapped[at], swapped[other] = lines[other], lines[at]
            lists(tally, f"an image with lines {other + 1} and {at + 1} exchanged",
                  b"".join(line + b"\n" for line in swapped), [])


def linux_images(tally):
    """Names, targets and blocks that Linux 6.12 stored, under a key of each mode and under keys of their
    own."""
    image, without, with_key = linux_image()
    for what, words, wanted in (("without the key", inspected(), without),
                                ("with it", inspected(RAW), with_key)):
        status, got, _ = run(words, image)
        tally.wants(f"what Linux stored is listed {what}", (status, got) == (0, wanted),
                    repr((status, got[:200])))
    lists(tally, "what Linux stored", image, [RAW])


def long_images(tally):
    """As many bytes as an image may have, and one more."""
    for more, wanted, told in ((0, BAD_LINE, b"fsc: bad line 1\n"), (1, TOO_LONG, b"fsc: input too long\n")):
        status, got, line = run(inspected(), b"\n" * (MAX_IMAGE + more))
        tally.wants(f"an image of {MAX_IMAGE + more} bytes ends with {wanted}",
                    (status, got) == (wanted, b"") and line.startswith(told), repr((status, line)))


CHECKS = (worked_rows, examples_dumped, large_trees, faulty_images, changed_images, linux_images,
          long_images)
