"""Makes instances of cells of Verilog's primitives, text to text, before yosys reads a netlist.

yosys's parser takes primitives apart (a `nor` becomes two cells, without the instance's name). So
`nand #2 G1 (y, a, b);` becomes `P_nand_3 G1 (y, a, b);`, an instance of a cell with these pins.
Lines stay where they are.
"""

import re

from liberty import Cell, Pin

# the operation of a gate, "" or "!" for buf and not, the disabling bit of the enable for buffers
PRIMITIVES = {"and": "&", "nand": "!&", "or": "|", "nor": "!|", "xor": "^", "xnor": "!^",
              "buf": "", "not": "!", "bufif0": "E", "bufif1": "!E", "notif0": "E", "notif1": "!E"}
SWITCHES = set("""nmos pmos rnmos rpmos cmos rcmos tran rtran tranif0 tranif1 rtranif0 rtranif1
    pullup pulldown""".split())
STRENGTHS = set("""supply0 supply1 strong0 strong1 pull0 pull1 weak0 weak1 highz0
    highz1""".split())
STARTS = set("; endmodule begin end endgenerate generate else".split())
WORD = re.compile(
    r'"(?:[^"\\\n]|\\.)*"|//[^\n]*|/\*.*?\*/|\(\*(?!\s*\)).*?\*\)|\\\S+|`[^\n]*'
    r"|[A-Za-z_$][\w$]*|\d[\w\']*|\s+|.", re.S)
# what is rewritten; a netlist of cells alone has only modules
SPECIAL = {"module", "primitive", *PRIMITIVES, *SWITCHES}
SOME = re.compile(rf"\b(?:{'|'.join(sorted(SPECIAL - {'module'}))})\b")
MODULE = re.compile(r"\bmodule\s+\\?(\S+?)[\s(;#]")


class Refused(Exception):
    """What a netlist has that no bench file can have, in one line."""


def is_blank(word):
    return word.isspace() or word[:2] in ("//", "/*", "(*")


class Rewriter:
    """Rewrites one file. `needed` collects (primitive, number of pins), `udps` names of UDPs."""

    def __init__(self, text, path, cells):
        self.path, self.cells, self.whole = path, cells, text
        self.words, self.at, self.line, self.out = [], 0, 1, []
        self.needed, self.udps, self.counts = set(), {}, {}

    def solid(self, at):
        """Returns the place of the next word that is neither a blank nor a comment."""
        while at < len(self.words) and is_blank(self.words[at]):
            at += 1
        return at

    def word(self, at):
        return self.words[at] if at < len(self.words) else ""

    def closing(self, at):
        """Returns the place behind the bracket that closes the one here."""
        depth, begin = 0, at
        while at == begin or depth:
            word = self.word(at)
            if not word:
                raise Refused(f"{self.path}:{self.line}: a bracket isn't closed")
            depth += len(word) == 1 and (word in "([{") - (word in ")]}")
            at += 1
        return at

    def write(self, text, upto):
        """Writes a text in place of the words up to a place, with as many lines as they have."""
        lines = sum(word.count("\n") for word in self.words[self.at:upto])
        self.out.append(text + "\n" * (lines - text.count("\n")))
        self.line += lines
        self.at = upto

    def text(self):
        """Returns the text with cells in place of primitives, without modules that are cells."""
        if not SOME.search(self.whole) and self.cells.keys().isdisjoint(
                MODULE.findall(self.whole)):
            return self.whole
        self.words = WORD.findall(self.whole)
        starts, at = True, 0
        while at < len(self.words):
            word = self.words[at]
            if starts and word in SPECIAL:
                self.copy(at)
                if self.special(word):
                    at = self.at
                    continue
            at += 1
            if not is_blank(word) and word[0] != "`":
                starts = word in STARTS
        self.copy(at)
        return "".join(self.out)

    def copy(self, upto):
        """Writes the words up to a place as they are."""
        text = "".join(self.words[self.at:upto])
        self.out.append(text)
        self.line += text.count("\n")
        self.at = upto

    def special(self, word):
        """Rewrites what begins here, if it is a primitive or a definition of a cell."""
        name = self.word(self.solid(self.at + 1)).lstrip("\\")
        if word in SWITCHES:
            hint = "give its module a Liberty cell of its name (--lib)"
            raise Refused(f"{self.path}:{self.line}: a switch ({word}): {hint}")
        if word == "primitive":
            self.udps[name] = f"{self.path}:{self.line}"
            self.leave_out("endprimitive")
        elif word == "module" and name in self.cells:
            self.leave_out("endmodule")
        elif word in PRIMITIVES:
            self.primitive(word)
        else:
            return False
        return True

    def leave_out(self, end):
        if end not in self.words[self.at:]:
            raise Refused(f"{self.path}:{self.line}: no {end}")
        self.write("", self.words.index(end, self.at) + 1)

    def primitive(self, kind):
        """Rewrites a statement of primitives."""
        at = self.solid(self.at + 1)
        if self.word(at) == "(" and STRENGTHS & set(self.words[at:self.closing(at)]):
            at = self.solid(self.closing(at))
        if self.word(at) == "#":
            at = self.solid(at + 1)
            at = self.solid(self.closing(at) if self.word(at) == "(" else at + 1)
        self.write("", at)
        self.instance(kind)
        while self.word(self.at) == ",":
            self.write("", self.solid(self.at + 1))
            self.instance(kind)
        if self.word(self.at) != ";":
            raise Refused(f"{self.path}:{self.line}: a primitive {kind} doesn't end at ;")
        self.write("", self.at + 1)

    def instance(self, kind):
        """Rewrites one primitive of a statement."""
        at, name, span = self.at, "", ""
        if self.word(at) != "(":
            name, at = self.words[at], self.solid(at + 1)
        if self.word(at) == "[":
            end = self.closing(at)
            span, at = "".join(self.words[at:end]), self.solid(end)
        if self.word(at) != "(":
            raise Refused(f"{self.path}:{self.line}: a primitive {kind} without its pins")
        end = self.closing(at)
        count = self.pins(at, end)
        self.needed.add((kind, count))
        name = name or self.unnamed(kind)
        pins = "".join(self.words[at:end])
        self.write(f"P_{kind}_{count} {name} {span}{pins};", self.solid(end))

    def pins(self, begin, end):
        """Counts the pins between two brackets."""
        depth, count = 0, 1
        for word in self.words[begin:end]:
            depth += len(word) == 1 and (word in "([{") - (word in ")]}")
            count += word == "," and depth == 1
        return count

    def unnamed(self, kind):
        """Names an instance without a name by its line."""
        name = f"{kind}${self.line}"
        self.counts[name] = count = self.counts.get(name, 0) + 1
        return name if count == 1 else f"{name}${count}"


def primitive_cell(kind, count):
    """Returns the cell of a primitive with this many pins; outputs come first, as in Verilog."""
    cell, form, data = Cell(f"P_{kind}_{count}"), PRIMITIVES[kind], ("v", "A")
    if kind in ("buf", "not"):
        for at in range(1, count):
            name = "Y" if count == 2 else f"Y{at}"
            cell.pins[name] = Pin(name, "output", ("!", data) if form else data)
        cell.pins["A"] = Pin("A", "input")
    elif form in ("E", "!E"):
        off = ("v", "E") if form == "E" else ("!", ("v", "E"))
        cell.pins["Y"] = Pin("Y", "output", data if kind[0] == "b" else ("!", data), off)
        cell.pins |= {"A": Pin("A", "input"), "E": Pin("E", "input")}
    else:
        names = [f"A{at}" for at in range(1, count)]
        e = (form[-1], [("v", name) for name in names]) if count > 2 else ("v", "A1")
        cell.pins["Y"] = Pin("Y", "output", ("!", e) if form[0] == "!" else e)
        cell.pins |= {name: Pin(name, "input") for name in names}
    return cell
