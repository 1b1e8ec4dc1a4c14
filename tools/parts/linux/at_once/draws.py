"""Scripts for callers at once, drawn by a number: ten families, each of which is about one thing."""
import random

K = ("11" * 64, "22" * 64)
FAMILIES = (
    "keys",
    "tree",
    "walks",
    "sealed",
    "removals",
    "handles",
    "files",
    "policies",
    "contents",
    "mixed",
)
CALLERS = (2, 2, 3, 3, 4, 4, 5, 6, 7)
CALLS = (5, 8, 12, 20, 30)
MAX_CLOSES = 12
ENCRYPTED = (f"add-key {K[0]}", "mkdir /e", f"set-policy /e raw:{K[0]} 32", "create /e/f")
WITH_HANDLES = ("tree", "walks", "sealed", "handles", "files", "contents", "mixed")
WITH_ROOT = ("keys", "policies", "removals", "mixed")
BEFORE = {
    "tree": ("mkdir /a", "mkdir /b", "create /a/f", "create /a/g"),
    "walks": ("mkdir /a", "mkdir /a/s", "mkdir /b", "create /a/f", "create /a/s/f"),
    "sealed": (*ENCRYPTED, "mkdir /e/d"),
    "removals": (*ENCRYPTED, "mkdir /e/d", "create /e/d/g"),
    "handles": (*ENCRYPTED, "create /e/g", "open /e", "stat /e/f"),
    "files": (*ENCRYPTED, "mkdir /e/d", "create /e/d/g"),
    "policies": (*(f"add-key {key}" for key in K), "mkdir /a", "mkdir /b"),
    "mixed": (*ENCRYPTED, "mkdir /e/d", "create /e/d/g", "mkdir /a"),
}
AFTER = {
    "keys": tuple(f"key-status raw:{key}" for key in K),
    "tree": ("list /", "list /a", "list /b", "stat /a/f", "stat /b/f", "stat /f"),
    "walks": ("list /", "list /a", "list /b", "list /a/s", "list /b/s", "list /s"),
    "sealed": ("list /", "list /e", "list /e/d", "stat /e/f", "stat /e/d/f", f"key-status raw:{K[0]}"),
    "removals": (f"key-status raw:{K[0]}", "list /", "list /e", "stat /e/f"),
    "handles": (f"key-status raw:{K[0]}", "list /e"),
    "files": (f"key-status raw:{K[0]}", "list /", "list /e", "stat /e/f"),
    "policies": ("get-policy /a", "get-policy /b", "list /a", "list /b"),
    "contents": ("stat /e/f", "read 0 0 4096"),
    "mixed": (f"key-status raw:{K[0]}", "list /", "list /e", "list /a", "stat /e/f"),
}


class Draws:
    """Draws one script: in each section what is made before, together and after."""

    def __init__(self, number):
        self.family = FAMILIES[number % len(FAMILIES)]
        self.name = f"{self.family}-{number // len(FAMILIES)}"
        self.random = random.Random(self.name)
        self.opened = self.caller = self.user = 0

    def pick(self, *choices):
        """One of these."""
        return self.random.choice(choices)

    def weighted(self, **choices):
        """The name of one of these, by its weight."""
        return self.random.choices(list(choices), choices.values())[0]

    def script(self):
        """The script: up to seven callers with up to thirty calls each."""
        users = [self.pick(1000, 1001, 1002, 1003) for _ in range(self.pick(*CALLERS))]
        longest = self.pick(*CALLS)
        if self.family in WITH_ROOT and self.random.random() < 0.5:
            users[-1] = 0
        users[0] = 1000
        lines = []
        for self.caller, self.user in enumerate(users):
            self.opened = 0
            lines += [f"caller {self.user}", *self.before(), "# together"]
            for _ in range(longest if self.random.random() < 0.7 else self.random.randint(2, longest)):
                lines.append(getattr(self, f"in_{self.family}")())
                self.opened += lines[-1].startswith("open ")
            lines.append("# after")
            if self.family in WITH_HANDLES:
                lines += [f"close {number}" for number in range(min(self.opened, MAX_CLOSES))]
            if self.caller == len(users) - 1:
                lines += AFTER[self.family]
        return "".join(line + "\n" for line in lines)

    def before(self):
        """What a caller makes before."""
        if self.family == "contents":
            made = [
                f"add-key {K[0]}",
                "mkdir /e",
                *[f"set-policy /e raw:{K[0]} 32"] * self.random.randint(0, 1),
                "create /e/f",
            ]
            return [*made * (self.caller == 0), "open /e/f"]
        if self.family == "keys" and not self.caller:
            return [f"add-key {K[0]}"] * self.random.randint(0, 1)
        if self.family == "policies" and self.caller:
            return [f"add-key {self.pick(*K)}"] * self.random.randint(0, 1)
        return list(BEFORE.get(self.family, ())) if not self.caller else []

    def in_keys(self):
        """Calls on two keys."""
        key = K[self.pick(0, 0, 1)]
        verb = self.weighted(add=35, remove=35, all=5 + 10 * (self.user == 0), status=25)
        return {
            "add": f"add-key {key}",
            "remove": f"remove-key raw:{key}",
            "all": f"remove-key-all raw:{key}",
            "status": f"key-status raw:{key}",
        }[verb]

    def key_call(self):
        """A call on one key."""
        verb = self.weighted(add=30, remove=40, all=5 * (self.user == 0), status=25)
        return {
            "add": f"add-key {K[0]}",
            "remove": f"remove-key raw:{K[0]}",
            "all": f"remove-key-all raw:{K[0]}",
            "status": f"key-status raw:{K[0]}",
        }[verb]

    def in_tree(self, directories=("/a", "/b", "/a", "/")):
        """Calls on names of some directories, and on files in them."""

        def path(*names):
            return self.pick(*directories).rstrip("/") + "/" + self.pick(*names)

        name, verb = path("f", "g", "h"), self.weighted(
            create=20,
            unlink=15,
            rename=20,
            mkdir=5,
            rmdir=5,
            stat=15,
            list=10,
            open=4,
            write=2,
            read=2,
            close=2,
        )
        if verb == "rename":
            return f"rename {name} {path('f', 'g', 'h')}"
        if verb == "list":
            return f"list {self.pick(*directories)}"
        if verb == "open":
            return f"open {path('f', 'g')}"
        return self.on_handle(verb) if verb in ("read", "write", "close") else f"{verb} {name}"

    def on_handle(self, verb):
        """A call on a handle, which there may be."""
        handle = self.random.randint(0, self.opened)
        return {
            "write": f"write {handle} 0 {self.pick('61', '6262', '636363')}",
            "read": f"read {handle} 0 10",
            "close": f"close {handle}",
        }[verb]

    def in_walks(self):
        """Calls on names of directories that move."""
        directories = ("/a", "/b", "/a/s", "/b/s", "/s")

        def path():
            return self.pick(*directories) + "/" + self.pick("f", "g")

        verb = self.weighted(move=35, rename=15, create=10, unlink=10, mkdir=5, rmdir=5, stat=20)
        if verb == "move":
            return f"rename {self.pick(*directories)} {self.pick(*directories)}"
        if verb == "rename":
            return f"rename {path()} {path()}"
        return f"{verb} {self.pick(*directories) if verb in ('mkdir', 'rmdir') else path()}"

    def in_sealed(self):
        """Calls below a directory whose key stays, while others add and remove it."""
        verb = self.weighted(
            status=5, add=10 * (self.user != 1000), remove=10 * (self.user != 1000), tree=75
        )
        if verb == "tree":
            return self.in_tree(("/e", "/e/d", "/e"))
        return {
            "add": f"add-key {K[0]}",
            "remove": f"remove-key raw:{K[0]}",
            "status": f"key-status raw:{K[0]}",
        }[verb]

    def in_removals(self):
        """Last removals beside calls on names, without handles."""
        if self.random.random() < 0.5:
            return self.key_call()
        name = self.pick("/e/f", "/e/d/g", "/e/g", "/e/d/h", "/e/h")
        verb = self.weighted(stat=35, create=15, unlink=10, rename=15, list=20, policy=5)
        return {
            "rename": f"rename {name} {self.pick('/e/f', '/e/d/g', '/e/g', '/e/h')}",
            "policy": "get-policy /e",
            "list": f"list {self.pick('/e', '/e/d')}",
        }.get(verb, f"{verb} {name}")

    def in_handles(self):
        """Calls below a directory that stays open, while its key comes and goes."""
        if self.random.random() < 0.35:
            return self.key_call()
        name, verb = self.pick("/e/f", "/e/g", "/e/h"), self.weighted(
            open=30, close=15, read=10, write=10, stat=10, create=10, unlink=5, rename=10
        )
        if verb in ("close", "read", "write"):
            return self.on_handle(verb) if self.caller else f"stat {name}"
        return f"rename {name} {self.pick('/e/f', '/e/g', '/e/h')}" if verb == "rename" else f"{verb} {name}"

    def in_files(self):
        """Files that are opened and closed beside last removals."""
        if self.random.random() < 0.4:
            return self.key_call()
        name, verb = self.pick("/e/f", "/e/d/g", "/e/h"), self.weighted(
            open=40, close=30, read=10, write=10, stat=4, create=3, unlink=3
        )
        return self.on_handle(verb) if verb in ("close", "read", "write") else f"{verb} {name}"

    def in_policies(self):
        """Policies that are set at once, on directories that are emptied, removed and made."""
        path = self.pick("/a", "/b")
        verb = self.weighted(policy=25, ask=15, create=10, unlink=10, rmdir=5, mkdir=10, stat=5, other=20)
        if verb == "policy":
            return f"set-policy {path} raw:{self.pick(*K)} {self.pick(16, 32)}"
        if verb == "other" and self.user == 1000:
            return self.pick(f"key-status raw:{K[0]}", f"rename /a/f {path}/g")
        if verb == "other":
            return self.pick("add-key ", "remove-key raw:") + self.pick(*K)
        return {
            "ask": f"get-policy {path}",
            "create": f"create {path}/{self.pick('f', 'g')}",
            "unlink": f"unlink {path}/{self.pick('f', 'g')}",
        }.get(verb, f"{verb} {path}")

    def in_contents(self):
        """Reads and writes of one file."""
        byte = self.caller * 16 + self.random.randint(1, 15)
        verb = self.weighted(write=30, fill=15, read=35, stat=20)
        return {
            "write": f"write 0 {self.pick(0, 0, 2, 6)} {f'{byte:02x}' * self.pick(1, 4, 8)}",
            "fill": f"fill 0 {self.pick(0, 0, 100, 4000)} {self.pick(100, 4096, 6000)} {byte}",
            "read": f"read 0 {self.pick(0, 0, 4000)} {self.pick(8, 100, 4096)}",
            "stat": "stat /e/f",
        }[verb]

    def in_mixed(self):
        """All of these, with caches dropped."""
        verb = self.weighted(files=30, removals=25, policy=5 * (self.user != 0), caches=2, tree=38)
        if verb in ("files", "removals"):
            return getattr(self, f"in_{verb}")()
        return {"policy": f"set-policy /a raw:{K[0]} 32", "caches": "drop-caches"}.get(verb) or self.in_tree(
            ("/e", "/a", "/e/d")
        )
