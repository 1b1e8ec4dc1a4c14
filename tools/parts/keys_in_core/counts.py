"""How often keys are in a memory, whole and by their pieces."""
import collections

PAGE = 4096
ZEROS = bytes(PAGE)


class Search:
    """Finds keys in memories. Each piece of each form of each key is looked up at each byte."""

    def __init__(self, keys):
        self.keys = list(keys)
        self.rows = list(dict.fromkeys(key.row for key in self.keys))
        self.lengths = sorted({key.piece for key in self.keys})
        self.pieces = collections.defaultdict(list)
        for number, key in enumerate(self.keys):
            for form in dict.fromkeys(key.forms()):
                for at in range(len(form) - key.piece + 1):
                    self.pieces[form[at:at + key.piece]].append((number, form, at))

    def counts(self, memory):
        """For each row its whole copies, and for each of its keys the most copies of one piece, all added
        up."""
        whole, pieces = collections.Counter(), collections.Counter()
        for part in memory:
            for at, length in self.found(part):
                for number, form, place in self.pieces[part[at:at + length]]:
                    pieces[number, place] += 1
                    if place == 0 and part.startswith(form, at):
                        whole[self.keys[number].row] += 1
        most = collections.defaultdict(int)
        for (number, _), count in pieces.items():
            most[number] = max(most[number], count)
        told = {row: [whole[row], 0] for row in self.rows}
        for number, count in most.items():
            told[self.keys[number].row][1] += count
        return {row: tuple(counts) for row, counts in told.items()}

    def found(self, part):
        """The places of the part at which there is a piece of a key, with its length."""
        pieces = self.pieces
        for start in range(0, len(part), PAGE):
            if part[start:start + PAGE] == ZEROS[:len(part) - start]:
                continue
            for length in self.lengths:
                for at in range(start, min(start + PAGE, len(part) - length + 1)):
                    if part[at:at + length] in pieces:
                        yield at, length
