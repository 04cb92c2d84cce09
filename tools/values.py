"""Values of a run: the texts of words, as println writes them, but that an actor has its name."""
import re

CONSTANTS = {0: "?", 1: "NIL", 2: "FALSE", 3: "TRUE"}
ACTOR, SPONSOR, PAIR, SYMBOL, FUNC, BLOCK = 6, 7, 10, 13, 14, 15
RAM, OPAQUE = 0x20000000, 0x60000000


class Values:
    """The values that stand in the cells of a run, and the names of its actors."""

    def __init__(self, debugger, ram, names):
        self.debugger, self.ram, self.names, self.rom = debugger, ram, names, dict.fromkeys(range(16))

    def cell(self, word):
        """The cell that a word names and a program may read."""
        if word < RAM and word not in self.rom:
            # What belongs together stands together.
            self.rom.update(self.debugger.cells("rom", range(max(16, word - 50), word + 200), 0))
        return self.rom[word] if word < RAM else self.ram.get(word - RAM) if word >> 29 == 1 else None

    def numbers(self, word, most):
        """The numbers of a list that `#nil` ends, none where it is longer than that or holds anything else."""
        numbers = []
        while word != 1:
            cell = self.cell(word)
            if not cell or cell[0] != PAIR or cell[1] >> 30 != 2 or len(numbers) == most:
                return None
            numbers.append(cell[1] & 0x3FFFFFFF)
            word = cell[2]
        return numbers

    def leaf(self, word):
        """The text of a word that names no pair."""
        if word >> 31:
            return str((word & 0x7FFFFFFF ^ 1 << 30) - (1 << 30))
        if word >> 29 == 3:
            number = word - OPAQUE
            return self.names.get(number, "@" if self.ram[number][0] == ACTOR else "^")
        kind, first = (self.cell(word) or (None, None))[:2]
        name = bytes(min(n, 255) for n in self.numbers(first, 128) or ()) if kind == SYMBOL else b""
        if name and not re.search(rb'[^!-~]|["#$(),.:=\[\\\]]', name):
            return "#" + name.decode("ascii")
        return CONSTANTS.get(word, {FUNC: "\\", BLOCK: "[]"}.get(kind, "^"))

    def text(self, word, most=56):
        """The text of a value, cut where it is longer than that."""
        text, todo = "", [("", word)]
        while todo and len(text) <= most:
            place, word = todo.pop()
            cell = self.cell(word) if place != "end" else None
            if cell and cell[0] == PAIR:
                text += ", " if place == "tail" else "("
                todo += [("tail", cell[2]), ("", cell[1])]
            elif place == "tail":
                todo += [("end", ")"), ("", word)]
                text += ", "
            else:
                text += word if place == "end" else self.leaf(word)
        return text if len(text) <= most else text[: most - 2] + ".."
