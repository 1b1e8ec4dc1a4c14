"""Makes the script of a transcript: a section for each user, with pauses where another one acts."""
import dataclasses

from parts.common.log_reader import PAUSE


@dataclasses.dataclass
class Script:
    """The sections of a script, of which each command is beside the step that it is, or beside None."""
    users: list
    sections: list

    def text(self):
        """The script as fsc reads it."""
        lines = []
        for user, section in zip(self.users, self.sections):
            lines += [f"caller {user.uid}", *(command for command, _ in section)]
        return "".join(line + "\n" for line in lines).encode()

    def steps_by_line(self):
        """The step of each line of the text that has one."""
        found, line = {}, 0
        for section in self.sections:
            line += 1
            for _, step in section:
                line += 1
                if step is not None:
                    found[line] = step
        return found

    def without(self, steps):
        """The script with a pause in place of each of these steps."""
        sections = [[(PAUSE, None) if step in steps else (command, step) for command, step in section]
                    for section in self.sections]
        return Script(self.users, sections)

    def level(self):
        """Pauses at the ends of the shorter sections, so that what is put after comes after all steps."""
        rounds = max(map(len, self.sections), default=0)
        for section in self.sections:
            section += [(PAUSE, None)] * (rounds - len(section))

    def ask(self, caller, command):
        """Puts a command that is no step at the end of a caller's section; its number in the section."""
        self.sections[caller].append((command, None))
        return len(self.sections[caller]) - 1


def script_of(users, steps):
    """The script whose run in turns makes these steps in this order.

    A round has a command of each user. A user who doesn't act between two steps that do has a pause there.
    """
    made = Script(users, [[] for _ in users])
    last = len(users) - 1
    for step in steps:
        if step.caller > last:
            idle = range(last + 1, step.caller)
        else:
            idle = [*range(last + 1, len(users)), *range(step.caller)]
        for caller in idle:
            made.sections[caller].append((PAUSE, None))
        made.sections[step.caller].append((step.command, step))
        last = step.caller
    return made
