"""Has yosys make gates of RTL."""

import os
import re
from itertools import product

from primitives import Refused
from reading import run_yosys

# Lists of what can't stay, by the signals that it drives.
FOUND = """
tee -q -o {room}/asynchronous select -list {asynchronous}
tee -q -o {room}/tristate select -list {tristate} %co1:+[Y] w:* %i
tee -q -o {room}/formal select -list {formal}
"""
ASYNCHRONOUS = """$adff $adffe $aldff $aldffe $dffsr $dffsre $_DFF_???_ $_DFFE_????_ $_DFFSR*
    $_ALDFF*"""
TRISTATE = "$tribuf $_TBUF_"
FORMAL = "$assert $assume $cover $live $fair"
HIERARCHY = "hierarchy -check -top {top}{parameters}\n"
# An instance loses its place before it is dissolved, so that what is in it has its own place alone.
# A register with (* keep *) is a wire for yosys, whose flip-flop has to stay.
RTL = """
{cuts}
proc; setattr -unset src t:$* %n c:* %i t:$paramod* %u; flatten; {before}; check; tribuf
{found}
chformal -remove
setattr -set keep 1 w:* a:keep %i a:keep=0 %d %ci1:+[Q]
dump -o {room}/registers.il
techmap -map +/adff2dff.v
synth -flatten -top {top} -noabc{recode}
techmap -map {room}/synchronous.v; simplemap
dfflegalize -cell $_DFF_P_ 01 -cell $_DFF_N_ 01 -cell $_DLATCH_P_ x -cell $_DLATCH_N_ x
opt -nodffe -nosdff
dump -o {room}/all_names.il
{undefined}; {tidy}; {map}; {tidy}; {tidy}; {map}; opt_clean -purge
"""
# dumped on the way: a copy of the design, or write_json, would change what later commands make
SAVED = ("registers", "all_names")
# (the snapshot of all names comes before a net without a driver is taken for a constant)
UNDEFINED = "setundef -undriven -zero; setundef -zero"
TIDY = f"opt -nodffe -nosdff; {UNDEFINED}"
MAP = "abc -g AND,NAND,OR,NOR,XOR,XNOR"
# An asynchronous set and reset as gates, or as a synchronous one; reset wins over set.
WITH_RESET = """
module \\$_DFF{e}_{edges}_ (input D, C, R{pin}, output Q);
  \\$_SDFF{e}_{edges}_ _TECHMAP_REPLACE_ (.D(D), .C(C), .R(R){link}, .Q(Q));
endmodule
"""
WITH_BOTH = """
module \\$_DFFSR_{clock}{set}{reset}_ (input D, C, S, R, output Q);
  \\$_SDFF_{clock}{reset}0_ _TECHMAP_REPLACE_ (.D(D | {active}S), .C(C), .R(R), .Q(Q));
endmodule
"""
UNDRIVEN = re.compile(r"Warning: Wire (.*) is used but has no driver")
TWICE = re.compile(r"Warning: multiple conflicting drivers for (.*):")
UNKNOWN = re.compile(r"Module `\\(.*)' referenced in module `\\(.*)' in cell `\\(.*)' is not part")
# what yosys reports of SystemVerilog that it can't read
SYNTAX = re.compile(r"(\S+):(\d+): ERROR: syntax error")
# of yosys's proc: with a set and a reset it lets the reset win, whatever the Verilog says
BOTH = "Warning: Complex async reset for dff"


def listing(kinds):
    """Words of yosys that select the cells of these kinds."""
    first, *others = kinds.split()
    return " ".join([f"t:{first}", *(f"t:{kind} %u" for kind in others)])


def reading(given):
    """The lines that have yosys read the files."""
    flags = [f"-D{word}" for word in given.define] + [f"-I{word}" for word in given.include]
    return "\n".join(" ".join(["read_verilog", *flags, *["-sv"] * name.endswith(".sv"),
                               f'"{name}"']) for name in dict.fromkeys(given.files))


def synchronous():
    """Verilog for techmap, by which asynchronous sets and resets become synchronous."""
    text = ""
    for edges in map("".join, product("PN", "PN", "01")):
        text += WITH_RESET.format(e="", edges=edges, pin="", link="")
        for enable in "PN":
            text += WITH_RESET.format(e="E", edges=edges + enable, pin=", E", link=", .E(E)")
    for clock, when, reset in product("PN", repeat=3):
        active = "" if when == "P" else "~"
        text += WITH_BOTH.format(clock=clock, set=when, reset=reset, active=active)
    return text


def blocks_of(text):
    """Yields the module, name and lines of each process of RTLIL."""
    module, name, begin = "", None, 0
    lines = text.split("\n")
    for at, line in enumerate(lines):
        if line.startswith("module "):
            module = line
        elif line.startswith("  process "):
            name, begin = line, at
        elif line == "  end" and name:
            yield module, name, range(begin, at)
            name = None


def without_edges(text, arst):
    """Returns RTLIL whose processes with a set and a reset have their clock's edge alone.

    `arst` is the same after proc_arst, where their edges are levels.
    """
    levels, lines = {}, arst.split("\n")
    for module, name, at in blocks_of(arst):
        levels[module, name] = re.findall(r"^    sync (?:high|low) (.*)$",
                                          "\n".join(lines[at.start:at.stop]), re.M)
    lines, gone = text.split("\n"), set()
    for module, name, at in blocks_of(text):
        signals = levels.get((module, name), [])
        is_gone = False
        for place in at if len(signals) > 1 else []:
            edge = re.fullmatch(r"    sync \S+ ?(.*)", lines[place])
            if edge:
                is_gone = edge[1] in signals
            gone |= {place} if is_gone else set()
    return "\n".join(line for place, line in enumerate(lines) if place not in gone)


class Synthesis:
    """One design on its way through yosys, in a folder."""

    def __init__(self, given, room):
        self.given, self.room = given, room

    def path(self, name):
        return f"{self.room}/{name}"

    def text(self, name):
        with open(self.path(name), encoding="utf-8") as file:
            return file.read()

    def write(self, name, text):
        with open(self.path(name), "w", encoding="utf-8") as file:
            file.write(text)

    def hierarchy(self):
        given = self.given
        sets = "".join(f" -chparam {word.replace('=', ' ', 1)}" for word in given.parameter)
        return HIERARCHY.format(top=given.top, parameters=sets)

    def script(self, begin):
        """The commands that make gates of what `begin` reads."""
        given = self.given
        found = FOUND.format(room=self.room, asynchronous=listing(ASYNCHRONOUS),
                             tristate=listing(TRISTATE), formal=listing(FORMAL))
        cuts = "\n".join(f"blackbox ={name}" for name in given.cut)
        script = begin + RTL.format(before=given.before, found=found, top=given.top, cuts=cuts,
                                    recode="" if given.recode else " -nofsm", room=self.room,
                                    undefined=UNDEFINED, tidy=TIDY, map=MAP)
        script += f'write_json "{self.room}/netlist.json"\n'
        if given.netlist:
            script += f'write_verilog -noexpr -noattr -norename "{given.netlist}"\n'
        script += f'write_blif "{given.blif}"\n' if given.blif else ""
        return script + "".join(f"design -reset; read_rtlil {self.room}/{name}.il\n"
                                f"write_json {self.room}/{name}.json\n" for name in SAVED)

    def run(self, script, log=None):
        """Runs commands of yosys; returns what it printed."""
        self.write("script.ys", script)
        self.write("synchronous.v", synchronous())
        status, said = run_yosys(self.path("script.ys"), log)
        self.refuse_found(said)
        if status:
            raise Refused(self.error(status, said))
        return said

    def netlist(self):
        """Makes the netlist; returns yosys's warnings, and what was made of resets."""
        begin = reading(self.given) + "\n" + self.hierarchy()
        said, both = self.run(self.script(begin), self.given.log), 0
        if BOTH in said:
            both = len(re.findall(re.escape(BOTH), said))
            self.write_without_edges(begin)
            said = self.run(self.script(f'read_rtlil "{self.path("edges.il")}"\n'
                                        f"hierarchy -check -top {self.given.top}\n"),
                            self.given.log)
        count = len(self.listed("asynchronous")) + both
        told = [f"asynchronous resets are made synchronous, of {count} registers"] * bool(count)
        formal = len(self.listed("formal"))
        told += [f"{formal} assertions are left out"] * bool(formal)
        return list(dict.fromkeys(re.findall(r"^Warning: .*$", said, re.M))), told

    def write_without_edges(self, begin):
        self.run(begin + f'write_rtlil "{self.path("read.il")}"\nproc_prune; proc_init; proc_arst\n'
                 f'write_rtlil "{self.path("arst.il")}"\n')
        self.write("edges.il", without_edges(self.text("read.il"), self.text("arst.il")))

    def listed(self, name):
        """The lines of a list that yosys left, without the module's name."""
        if not os.path.exists(self.path(name)):
            return []
        return [line.partition("/")[2] for line in self.text(name).splitlines()]

    def refuse_found(self, said):
        """Refuses what yosys found that a bench file has no place for."""
        for signal in self.listed("tristate"):
            hidden = re.match(r"\$\w+\$(.*?:\d+)\$", signal)
            what = f"an expression of {hidden[1]}" if hidden else f"signal {signal}"
            raise Refused(f"{what} is tri-state: --before 'tribuf -logic' makes gates of it, if it"
                          " is inside the design")
        for signal in TWICE.findall(said):
            module, _, name = signal.rpartition(".\\")
            raise Refused(f"signal {name} of module {module} has two drivers")
        for signal in UNDRIVEN.findall(said):
            module, _, name = signal.rpartition(".\\")
            raise Refused(f"signal {name} of module {module} has no driver:"
                          " --before 'setundef -undriven -zero' ties it to 0")

    def error(self, status, said):
        """Returns yosys's error, with words that say what to do."""
        errors = [line for line in said.splitlines() if "ERROR" in line]
        words = errors[-1] if errors else f"it ended with status {status}"
        unknown = UNKNOWN.search(words)
        if unknown:
            kind, module, instance = unknown.groups()
            return (f"instance {instance} of module {module}: there is no module {kind}: give its"
                    " file, or a (* blackbox *) module of its ports and --cut " + kind)
        syntax = SYNTAX.search(words)
        if syntax:
            return self.syntax_error(*syntax.groups())
        if "Can't find object for defparam" in words:
            return f"module {self.given.top} has no parameter {words.split('`')[1]}"
        if "Can't decode value" in words:
            value = words.split("'")[-2]
            return f"--parameter with the value {value}: a number of Verilog is wanted"
        return f"yosys: {words}"

    def syntax_error(self, path, line):
        """Returns what a syntax error of yosys most likely is."""
        with open(path, encoding="utf-8", errors="replace") as file:
            text = file.read()
        udp = re.search(r"^\s*primitive\s+(\w+)", text, re.M)
        if udp:
            return (f"{path}: a UDP (primitive {udp[1]}), which yosys doesn't read: write its"
                    " function as a module")
        if path.endswith(".sv"):
            return (f"{path}:{line}: SystemVerilog that yosys doesn't read: `sv2v FILE.sv..` makes"
                    " Verilog of it")
        return (f"{path}:{line}: yosys finds a syntax error. SystemVerilog is read in files named"
                " .sv, or made Verilog by sv2v")
