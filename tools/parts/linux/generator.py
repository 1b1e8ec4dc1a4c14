"""Scripts drawn by a number: plain calls over all verbs that a kernel has."""
import hmac
import random

USERS = (1000, 1001, 1002, 0)
KEYS = tuple(byte * 64 for byte in ("11", "22")) + ("33" * 32,)
DIRECTORIES = ("/a", "/b", "/a/s", "/b/s", "/a/s/t")
NAMES = ("f", "g", "h", "a%20b", "s", "t")
PADS = (4, 8, 16, 32)
LONG = "n" * 255
POLICIES = ("0201040b", "03010403", "00010403", "02010503", "02090903", "02010404", "02010413", "02010480")
WEIGHTS = {"create": 12, "mkdir": 6, "symlink": 3, "unlink": 6, "rmdir": 3, "rename": 8, "list": 8,
           "stat": 10, "open": 10,
           "close": 6, "read": 5, "write": 5, "fill": 2, "add-key": 6, "remove-key": 8, "remove-key-all": 2,
           "key-status": 5, "set-policy": 4, "set-policy-bytes": 2, "get-policy": 4, "readlink": 2,
           "drop-caches": 1}


def identifier(key):
    """A raw key's identifier (docs/FORMATS.md, Keys)."""
    fixed = hmac.digest(bytes(64), bytes.fromhex(key), "sha512")
    return hmac.digest(fixed, b"fscrypt\x00\x01\x01", "sha512")[:16].hex()


class Generator:
    """Draws one script."""

    def __init__(self, number):
        self.random = random.Random(number)
        self.opened = 0
        self.made = []
        self.home = "/a", KEYS[0]

    def script(self):
        """Up to four callers with fifteen to sixty commands each, of which the first are likely to make
        something."""
        callers = self.random.randint(1, 4)
        sections = []
        for _ in range(callers):
            self.opened = 0
            lines = [f"caller {self.random.choice(USERS)}"]
            if self.random.random() < 0.8:
                lines += self.beginning()
            if self.random.random() < 0.05:
                lines += self.nameless()
            for _ in range(self.random.randint(15, 60) // max(1, callers - 1)):
                lines += self.commands()
            sections += lines
        return "".join(section + "\n" for section in sections)

    def beginning(self):
        """An encrypted directory with a few entries."""
        pick, key = self.random.choice, self.random.choice(KEYS)
        path = pick(("/a", "/b", "/a", "/c"))
        lines = [f"add-key {key}", f"mkdir {path}", f"set-policy {path} raw:{key} {pick(PADS)}{self.unit()}"]
        names = [f"{path}/{name}" for name in self.random.sample(NAMES[:4], self.random.randint(0, 3))]
        below = [f"{path}/s"] * self.random.randint(0, 1)
        self.made += [path] * 3 + names * 2 + below
        self.home = path, key
        lines += [f"create {name}" for name in names] + [f"mkdir {path}" for path in below]
        for choice in self.random.choices(names + below + [path], k=self.random.randint(0, 2)):
            lines.append(f"open {choice}")
            self.opened += 1
        return lines

    def nameless(self):
        """A file is open and without a name, and its directory is encrypted then."""
        path, key = f"/n{len(self.made)}", self.random.choice(KEYS)
        self.opened += 1
        self.made += [path] * 2
        return [f"mkdir {path}", f"create {path}/x", f"open {path}/x", f"unlink {path}/x", f"add-key {key}",
                f"set-policy {path} raw:{key} 32", f"create {path}/f", f"remove-key raw:{key}",
                f"key-status raw:{key}"]

    def removal(self):
        """The key of the caller's first directory goes, something is open or not, and what is left is asked
        for."""
        path, key = self.home
        lines = [f"open {self.random.choice(self.made or [path])}"] * self.random.randint(0, 1)
        self.opened += len(lines)
        if lines and self.random.random() < 0.2:
            lines.append("unlink" + lines[0].removeprefix("open"))
        asked = [f"key-status raw:{key}", f"list {path}", f"stat {self.path()}",
                 f"rename {self.path()} {self.new_path()}",
                 f"open {self.path()}", f"remove-key raw:{key}", f"create {self.new_path()}"]
        return lines + [f"remove-key raw:{key}"] + self.random.sample(asked, 3)

    def unit(self):
        """Mostly a block."""
        return " " + self.random.choice(("9", "12")) if self.random.random() < 0.03 else ""

    def path(self):
        """Mostly a path that an earlier command made, or one below it."""
        pick, drawn = self.random.choice, self.random.random()
        if drawn < 0.01:
            return "/"
        if drawn < 0.03:
            return pick(DIRECTORIES) + "/" + LONG + pick(("", "n"))
        if drawn < 0.7 and self.made:
            return pick(self.made)
        if drawn < 0.85 and self.made:
            return pick(self.made).rstrip("/") + "/" + pick(NAMES)
        return pick(("/" + pick(NAMES), pick(DIRECTORIES), pick(DIRECTORIES) + "/" + pick(NAMES)))

    def new_path(self):
        """A path for a creation, which later commands use."""
        self.made.append(self.path() if self.random.random() < 0.3 or not self.made else
                         self.random.choice((*self.made, "")).rstrip("/") + "/" + self.random.choice(NAMES))
        return self.made[-1]

    def key(self):
        """A key as a KEYREF."""
        return "raw:" + self.random.choice(KEYS)

    def handle(self):
        """Most likely one of the caller's handles."""
        return self.random.randint(0, min(2, self.opened))

    def commands(self):
        """A command, and after a listing mostly some on what it listed."""
        if self.random.random() < 0.05:
            return self.removal()
        verb, = self.random.choices(list(WEIGHTS), WEIGHTS.values())
        line = getattr(self, "draw_" + verb.replace("-", "_"), lambda: f"{verb} {self.path()}")()
        if verb == "open":
            self.opened += 1
        return [line, *(self.on_listed(line.split(" ")[1].rstrip("/")) if verb == "list" else ())]

    def on_listed(self, path):
        """Up to three commands on what a listing has shown."""
        lines = []
        for _ in range(self.random.randint(0, 3)):
            star = f"{path}/*{self.random.randint(0, 2)}"
            lines.append(self.random.choice((
                f"stat {star}", f"unlink {star}", f"open {star}", f"rename {star} {path}/x", f"rmdir {star}",
                f"list {star}",
                f"get-policy {star}", f"readlink {star}", f"rename {star} /f", f"create {star}",
                f"mkdir {star}/x")))
            self.opened += lines[-1].startswith("open")
        return lines

    def draw_symlink(self):
        """Targets of up to 300 bytes."""
        length = self.random.choice((1, 5, 16, 40, 100, 200, 250, 300))
        return f"symlink {self.new_path()} {'t' * length}"

    def draw_create(self):
        return f"create {self.new_path()}"

    def draw_mkdir(self):
        return f"mkdir {self.new_path()}"

    def draw_rename(self):
        return f"rename {self.path()} {self.new_path()}"

    def draw_close(self):
        return f"close {self.handle()}"

    def draw_read(self):
        handle = self.handle()
        offset = self.random.choice((0, 0, 3, 4_090, 9_000))
        return f"read {handle} {offset} {self.random.choice((0, 10, 100, 4_096, 4_097))}"

    def draw_write(self):
        offset = self.random.choice((0, 0, 5, 4_094, 8_192, 1_048_575))
        return f"write {self.handle()} {offset} {self.random.choice(('-', '61', '616263646566'))}"

    def draw_fill(self):
        handle = self.handle()
        offset, length = self.random.choice((0, 1_000, 4_096)), self.random.choice((1, 5_000))
        return f"fill {handle} {offset} {length} {self.random.randint(0, 255)}"

    def draw_add_key(self):
        if self.random.random() < 0.05:
            return "add-key " + "44" * self.random.choice((1, 15, 16, 31, 65, 128))
        return "add-key " + self.random.choice(KEYS)

    def draw_remove_key(self):
        return "remove-key " + self.key()

    def draw_remove_key_all(self):
        return "remove-key-all " + self.key()

    def draw_key_status(self):
        return "key-status " + self.key()

    def draw_set_policy(self):
        path = self.path() if self.random.random() < 0.7 else self.random.choice(DIRECTORIES)
        return f"set-policy {path} {self.key()} {self.random.choice(PADS)}{self.unit()}"

    def draw_set_policy_bytes(self):
        """A policy with a key for each mode, or mostly none for the mount."""
        path, head = self.path(), self.random.choice(POLICIES)
        return f"set-policy-bytes {path} {head}00000000{identifier(self.random.choice(KEYS))}"

    def draw_drop_caches(self):
        return "drop-caches"
