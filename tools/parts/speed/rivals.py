"""The rivals: programs in C that are built here, and commands, each as a side of a measure."""
import os
import shutil
import subprocess

from parts import PARTS
from parts.speed.tables import COMMAND, MASKED, MOUNT, MUTEX, OPENSSL, SHUFFLES
from parts.speed.timing import Side, Work, alone

SOURCES = os.path.join(PARTS, "speed")
NO_AES = (("OPENSSL_ia32cap", "~0x200000200000000"),)
ZEROS = 67108864
VECTORS = ("-O3", "-march=x86-64-v2")
# The sources in C, with how each is built.
BUILDS = {"openssl_ciphers": (("-O2",), ("-lcrypto",)), "aes_shuffles": (VECTORS, ()),
          "plain_mount": (VECTORS, ("-lcrypto",)), "mutex": (("-O2", "-pthread"), ())}


def kernel_work(program, name, count, per=1):
    """A kernel of fsc_speed."""
    return Work((program, name, "{count}"), count, per)


class Rivals:
    """What a kernel is measured beside; a rival that can't be built or isn't installed is left out."""

    def __init__(self, program, folder):
        self.program, self.folder, self.built = program, folder, {}

    def compiled(self, name):
        """The path of a program in C, or None."""
        if name not in self.built:
            flags, libraries = BUILDS[name]
            path = os.path.join(self.folder, name)
            words = ["gcc", *flags, "-o", path, os.path.join(SOURCES, name + ".c"), *libraries]
            well = shutil.which("gcc") and not subprocess.run(words, stderr=subprocess.DEVNULL,
                                                              check=False).returncode
            self.built[name] = path if well else None
        return self.built[name]

    def openssl(self, label, work, size, count):
        """OpenSSL's library on texts of this many bytes."""
        path = self.compiled("openssl_ciphers")
        env = NO_AES if label == MASKED else ()
        return path and alone(label, Work((path, work, str(size), "{count}"), count, 1, env))

    def mutex(self, threads, count):
        """A sum of that many threads under a mutex."""
        path = self.compiled("mutex")
        return path and alone(MUTEX, Work((path, str(threads), "{count}"), count))

    def command(self, name, *given):
        """A command that does the kernel's work once."""
        if not shutil.which(name):
            return None
        if name == "argon2":
            passes, lanes = given
            return alone(COMMAND, Work(("argon2", "saltsaltsaltsalt", "-id", "-t", passes, "-k", "65536",
                                        "-p", lanes, "-l", "32", "-r")))
        zeros = os.path.join(self.folder, "zeros")
        if not os.path.exists(zeros):
            with open(zeros, "wb") as out:
                out.truncate(ZEROS)
        return alone(COMMAND, Work((name, *(word.replace("{zeros}", zeros) for word in given))))

    def side(self, kernel, label, given, part=1):
        """The rival of a kernel with this label, on the same work, or None."""
        count = max(kernel.count // part, 1)
        if label in (OPENSSL, MASKED):
            return self.openssl(label, *given, count)
        if label in (SHUFFLES, MOUNT):
            path = self.compiled("aes_shuffles" if label == SHUFFLES else "plain_mount")
            words = (path, "{count}") if label == SHUFFLES else (path, kernel.name, "{count}")
            return path and alone(label, Work(words, count, kernel.per))
        if label == COMMAND:
            return self.command(*given)
        return Side(label, tuple((weight, kernel_work(self.program, name, max(count // part, 1)))
                                 for weight, name, count in given))

    def sides(self, kernel, part=1):
        """Ours, and the rivals that are there; with a part, of a run that is that much shorter."""
        ours = alone("", kernel_work(self.program, kernel.name, max(kernel.count // part, 1), kernel.per))
        rivals = (self.side(kernel, label, given, part) for label, given in kernel.rivals)
        return [ours, *(rival for rival in rivals if rival)]
