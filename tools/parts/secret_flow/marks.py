"""What is marked in a run of the program, and at which function.

The secrets are marked where they were read and nothing was made of them yet. What everybody may see is
marked as public where it is made, and the bytes of it that depended on a secret until then are counted: if
there were none, a mark was lost.
"""
from parts.secret_flow.scripts import SECRET_KINDS, THE_SEED

# The first of these that is called has the secrets before it: the first command of a run or of a check, an
# inspection.
FIRST_USES = ("fsc_commands::command::run_command", "next_calls::caller::Caller::go_on",
              "fsc_tool::inspect::listing")

# The functions that read a word with a secret.
READERS = ("script_words::secret_words::read_secret", "script_words::secret_words::read_new_secret",
           "script_words::key_words::read_hex")
SEED_READER = "fsc_tool::form::read_form_unscrubbed"
ARGUMENTS, WORD_BYTES = ("rdi", "rsi", "rdx", "rcx", "r8", "r9"), 160

# The function that compares a tag with the one that it computed.
UNWRAP = "key_wrap::unwrap"

IDENTIFIER_BYTES, TAG_BYTES = 16, 32


class MissingFunction(Exception):
    """A function at which something is marked has no symbol: it was inlined, renamed or removed."""


class Marks:
    """The marks of one run: `secrets` by their kinds, what is public, and the blocks that an image
    stores."""

    def __init__(self, secrets, public_values, blocks=(), with_public=True):
        self.secrets, self.public_values, self.blocks = secrets, public_values, blocks
        self.has_begun, self.unwrappings = False, 0
        self.actions = {function: self.begin for function in FIRST_USES} | {UNWRAP: self.unwrapped}
        if with_public:
            self.actions |= {
                "hmac_kdf::keyed::Keyed::finish": self.derived,
                "key_wrap::wrap": self.wrapped,
                "name_crypt::encrypt::encrypt_into": self.name_encrypted,
                "cts_mode::chain::unchain": self.name_decrypted,
                "xts_mode::XtsKey::decrypt_unit": self.unit_decrypted,
                "tree_image::write::push_context": self.image_begun,
            }

    def prepare(self, run):
        """Stops at each function where something is marked."""
        for name, action in self.actions.items():
            addresses = run.symbols.addresses(name)
            if not addresses:
                raise MissingFunction(name)
            for address in addresses:
                run.stop_at(address, action)

    def begin(self, run, _):
        """Marks the secrets, at the first use alone."""
        if not self.has_begun:
            self.has_begun = True
            mark_values(run, self.secrets)

    def unwrapped(self, _, __):
        """Counts the calls that compare a tag."""
        self.unwrappings += 1

    def derived(self, run, registers):
        """HKDF's output: identifiers, nonces, ivs and salts. A tag that is computed here is not among the
        values: that of a wrong key is one that no reader may learn."""
        out = registers["rdi"]

        def finished(run, _):
            kind = self.public_values.get(run.memory(out, IDENTIFIER_BYTES))
            if kind:
                run.mark_public(kind, out, IDENTIFIER_BYTES)
        run.at_return(registers, finished)

    def wrapped(self, run, registers):
        """A wrapped key and its tag."""
        tag, out, length = registers["rdi"], registers["r9"], registers["r8"]

        def finished(run, _):
            run.mark_public("tags", tag, TAG_BYTES)
            run.mark_public("wrapped keys", out, length)
        run.at_return(registers, finished)

    def name_encrypted(self, run, registers):
        """A name as it is stored; the function returns its length."""
        out = registers["r9"]
        run.at_return(registers, lambda run, now: run.mark_public("stored names", out, now["rax"]))

    def name_decrypted(self, run, registers):
        """A name that a user with the key reads."""
        text, length = registers["rdx"], registers["rcx"]
        run.at_return(registers, lambda run, _: run.mark_public("names that are read", text, length + 16))

    def unit_decrypted(self, run, registers):
        """A data unit of contents that a user with the key reads, decrypted in place."""
        unit, length = registers["rdx"], registers["rcx"]
        run.at_return(registers, lambda run, _: run.mark_public("blocks that are read", unit, length))

    def image_begun(self, run, _):
        """Blocks as they are stored, which an image contains."""
        blocks, self.blocks = self.blocks, ()
        for at, length in run.addresses_of(blocks) if blocks else ():
            run.mark_public("stored blocks", at, length)


class ReadingMarks(Marks):
    """The marks of a run of which only the reading is measured: the secrets of some kinds as they are
    written, while a word is read. Where a word ends was found before."""

    def __init__(self, script, kinds):
        super().__init__({kind: script.written[kind] for kind in kinds}, {}, with_public=False)
        self.values = sum(script.secrets.values(), [])
        self.actions = {function: self.reading for function in READERS} | {function: self.begin
                                                                           for function in FIRST_USES}
        self.actions[SEED_READER] = self.seed_reading

    def reading(self, run, registers):
        """Marks the word that an argument points to, until it is read."""
        for kind, values in self.secrets.items():
            for pointer in {registers[register] for register in ARGUMENTS}:
                for value in values:
                    at = run.memory_or_none(pointer, WORD_BYTES).find(value)
                    if at >= 0:
                        self.mark(run, registers, kind, [(pointer + at, len(value))])

    def seed_reading(self, run, registers):
        """Marks the seed that is among the arguments of the command line, until it is read."""
        values = self.secrets.get(THE_SEED, ())
        self.mark(run, registers, THE_SEED, run.addresses_of(values) if values else [])

    def mark(self, run, registers, kind, places):
        """Marks these bytes until the function returns."""
        def finished(run, _):
            for at, length in places:
                run.mark_defined(at, length)
        if places:
            run.at_return(registers, finished)
            run.begin_kind(kind)
        for at, length in places:
            run.mark_secret(kind, at, length)

    def begin(self, run, _):
        """What was read is public from here on, at the first use alone."""
        if not self.has_begun:
            self.has_begun = True
            for at, length in run.addresses_of(self.values):
                run.mark_defined(at, length)


def mark_values(run, values_of_kinds):
    """Marks each value wherever it is in memory."""
    for kind in SECRET_KINDS:
        places = run.addresses_of(values_of_kinds.get(kind, ()))
        if places:
            run.begin_kind(kind)
        for at, length in places:
            run.mark_secret(kind, at, length)
