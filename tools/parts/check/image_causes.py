"""What is printed of a text that is no image: why its line is at fault."""
from parts.common.running import run

BAD_LINE = 3
MAX_STORED = 1_048_577
PAGE = "docs/FORMATS.md has the lines of an image, under Images"
HEADER = "fsc-image 1\n"
ROOT = HEADER + "node 0 dir -\n"
CONTEXT = "0201040300000000" + "61" * 32
BLOCK = "block " + "00" * 4_096 + "\n"
CHILD = ROOT + "entry 1 61\n"
ENCRYPTED = CHILD + f"node 1 dir {CONTEXT}\n"
NUMBER = "the node's number is not a number from 0 to 4294967295 without leading zeros"
TOO_FEW, TOO_MANY = "the line has too few words", "the line has too many words"
SPACE = "the line has a space too many"
NO_DIGITS = "is not an even number of lower-case hexadecimal digits"
MISSING = "a block of the file before it is missing"
NO_ENTRY = "an entry comes after a file or a symlink; only a directory has entries"
# Texts that are no image, the line at fault of each, and the cause.
CAUSES = [
    ("", 1, "the image is empty"),
    ("fsc-image 1", 1, "no line feed ends the line"),
    ("fsc-image 1\r\n", 1, "the line has a carriage return"),
    ("\ufeff" + ROOT, 1, "the image begins with a byte order mark"),
    ("fsc-image 2\n", 1, "the version of the image is not 1"),
    ("caller 0\n", 1, "the first line is not fsc-image 1"),
    (HEADER, 2, "the image ends before the root's line"),
    (HEADER + "node 1 dir -\n", 2, "the second line is not node 0 dir -"),
    (CHILD + "node 1 file - 1\n", 5, "the image ends before the last block of a file"),
    (CHILD + "node 1 dir -", 4, "no line feed ends the line"),
    (CHILD + "node 1 dir -\r\n", 4, "the line has a carriage return"),
    (ROOT + "\n", 3, "the line is empty"),
    (ROOT + "child 1 61\n", 3, "the line's first word is not node, entry or block"),
    (CHILD + "node 1 dir - \n", 4, SPACE),
    (CHILD + "node 1 dir\n", 4, TOO_FEW),
    (CHILD + "node 1 file -\n", 4, TOO_FEW),
    (CHILD + "node 1 dir - 1\n", 4, TOO_MANY),
    (CHILD + "node 1 file - 1 1\n", 4, TOO_MANY),
    (CHILD + "node 01 dir -\n", 4, NUMBER),
    (CHILD + f"node 1 dir {CONTEXT[2:]}\n", 4,
     "the context is neither - nor 80 lower-case hexadecimal digits"),
    (CHILD + f"node 1 dir 01{CONTEXT[2:]}\n", 4, "the context's 40 bytes are no context of version 2"),
    (CHILD + "node 1 fifo -\n", 4, "the node is not a dir, a file or a link"),
    (CHILD + "node 1 file - 01\n", 4, "the size is not a number without leading zeros"),
    (CHILD + "node 1 file - 1048577\n", 4, "the size is greater than 1048576"),
    (CHILD + "node 1 link - 6A\n", 4, "the target " + NO_DIGITS),
    (CHILD + f"node 1 link - {'61' * 256}\n", 4, "the target has more than 255 bytes"),
    (CHILD + f"node 1 link {CONTEXT} 61\n", 4,
     "the target has fewer than 16 bytes, and the symlink has a policy"),
    (CHILD + "node 1 dir -\nnode 1 dir -\n", 5,
     "the node's number is not greater than the one of the node before it"),
    (CHILD + "node 1 file - 1\nnode 2 dir -\n", 5, MISSING),
    (ROOT + "entry  1 61\n", 3, SPACE),
    (ROOT + "entry 1\n", 3, TOO_FEW),
    (ROOT + "entry 1 61 62\n", 3, TOO_MANY),
    (ROOT + "entry 4294967296 61\n", 3, NUMBER),
    (ROOT + "entry 1 616\n", 3, "the name " + NO_DIGITS),
    (ROOT + f"entry 1 {'61' * 256}\n", 3, "the name has more than 255 bytes"),
    (ENCRYPTED + "entry 2 61\n", 5, "the name has fewer than 16 bytes, and its directory has a policy"),
    (ROOT + "entry 1 2f\n", 3, "the name is no part of a path, and its directory has no policy"),
    (CHILD + "entry 2 61\n", 4, "the name is not after the one of the entry before it"),
    (CHILD + "node 1 link - 61\nentry 2 61\n", 5, NO_ENTRY),
    (CHILD + "node 1 file - 1\nentry 2 61\n", 5, NO_ENTRY),
    (ROOT + "entry 0 61\n", 3, "the entry resolves to the root"),
    (ROOT + "entry 2 61\nnode 1 dir -\n", 3, "the entry resolves to no node of the image"),
    (CHILD + "entry 1 62\nnode 1 dir -\n", 4, "an entry before it resolves to the same node"),
    (ROOT + BLOCK, 3, "a block comes after a directory or a symlink; only a file has blocks"),
    (CHILD + "node 1 file - 0\n" + BLOCK, 5, "the file before it has more blocks than its size needs"),
    (CHILD + "node 1 file - 1\nblock 00\n", 5, "a block is not 8192 lower-case hexadecimal digits"),
]


def causes_in_images(tally):
    """The cause is printed after the line of the status, and no byte of the text."""
    for image, line, cause in CAUSES:
        wanted = f"fsc: bad line {line}\nfsc: line {line}: {cause}; {PAGE}\n"
        status, got, told = run(["inspect"], image.encode())
        tally.wants(f"the image {image[-40:]!r} is at fault: {cause}",
                    (status, got, told) == (BAD_LINE, b"", wanted.encode()), repr(told))


def long_images_without_cause(tally):
    """Of a text that is too long to be stored the page alone is printed."""
    for count, told_of_first in ((MAX_STORED, f"line 1: the first line is not fsc-image 1; {PAGE}"),
                                 (MAX_STORED + 1, PAGE)):
        status, got, told = run(["inspect"], b"\n" * count)
        wanted = f"fsc: bad line 1\nfsc: {told_of_first}\n"
        tally.wants(f"a text of {count} bytes that is no image is at fault",
                    (status, got, told) == (BAD_LINE, b"", wanted.encode()), repr(told))


CHECKS = (causes_in_images, long_images_without_cause)
