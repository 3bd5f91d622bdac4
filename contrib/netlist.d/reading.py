"""Has yosys read a netlist of cells, and returns it flat. yosys parses, and does nothing else."""

import json
import os
import re
import shutil
import subprocess

from liberty import Cell, Pin
from names import indexed, place_of
from primitives import MODULE, Refused, Rewriter, primitive_cell

SCRIPT = """
read_verilog -lib {room}/stubs.v
{reading}
{cuts}
hierarchy -check -purge_lib -top {top}
setattr -mod -unset keep_hierarchy *
{places}
flatten
write_json {room}/flat.json
"""
UNKNOWN = re.compile(r"Module `\\(.*)' referenced in module `\\(.*)' in cell `\\(.*)' is not part")


class MissingYosys(Exception):
    """yosys isn't installed."""


def stub(cell):
    """Returns a black box of Verilog with a cell's pins in their order."""
    pins = [pin for pin in cell.pins.values() if pin.way != "internal"]
    ports = ", ".join(f"\\{pin.name} " for pin in pins)
    ways = "".join(f"  {pin.way} \\{pin.name} ;\n" for pin in pins)
    return f"(* blackbox *)\nmodule \\{cell.name} ({ports});\n{ways}endmodule\n"


def run_yosys(script, log=None):
    """Runs commands of yosys; returns its status and what it printed."""
    if shutil.which("yosys") is None:
        raise MissingYosys
    words = ["yosys", "-q", *(["-l", log] if log else []), "-s", script]
    how = {"stdout": subprocess.PIPE, "stderr": subprocess.STDOUT, "text": True}
    ran = subprocess.run(words, check=False, **how)
    return ran.returncode, ran.stdout


class Reading:
    """The files of a netlist on their way through yosys, in a folder that is there for them."""

    def __init__(self, given, cells, room):
        self.given, self.cells, self.room = given, cells, room
        self.files, self.udps, self.modules = [], {}, set()

    def module(self):
        """Returns the flat module of yosys's JSON, with the user's files in its `src`."""
        needed = set()
        for path in self.given.files:
            needed |= self.rewrite(path)
        for kind, count in sorted(needed):
            self.cells[f"P_{kind}_{count}"] = primitive_cell(kind, count)
        with open(f"{self.room}/stubs.v", "w", encoding="utf-8") as file:
            file.write("".join(map(stub, self.cells.values())))
        with open(f"{self.room}/script.ys", "w", encoding="utf-8") as file:
            file.write(self.script())
        status, said = run_yosys(f"{self.room}/script.ys")
        if status:
            raise Refused(self.error(status, said))
        with open(f"{self.room}/flat.json", encoding="utf-8") as file:
            modules = json.load(file)["modules"]
        add_cut_cells(self.given.cut, modules, self.cells)
        module = modules[self.given.top]
        for at in module["cells"].values():
            attributes = at.get("attributes", {})
            attributes["src"] = self.named(attributes.get("src", ""))
        return module

    def rewrite(self, path):
        """Writes a file with cells in place of primitives; returns those that it needs."""
        with open(path, encoding="utf-8", errors="replace") as file:
            rewriter = Rewriter(file.read(), path, self.cells)
        plain = re.sub(r"[^A-Za-z0-9_.]", "_", os.path.basename(path))
        short = f"{self.room}/{len(self.files)}_{plain}"
        self.files.append((short, path))
        with open(short, "w", encoding="utf-8") as file:
            file.write(rewriter.text())
        self.udps |= rewriter.udps
        found = {name for name in MODULE.findall(rewriter.whole) if re.fullmatch(r"\w+", name)}
        self.modules |= found - self.cells.keys() - set(self.given.cut)
        return rewriter.needed

    def script(self):
        flags = [f"-D{word}" for word in self.given.define]
        flags += [f"-I{word}" for word in self.given.include]
        reading = [" ".join(["read_verilog", *flags, *["-sv"] * path.endswith(".sv"), short])
                   for short, path in self.files]
        cuts = [f"blackbox ={name}" for name in self.given.cut]
        # an instance of a module loses its place, so that a cell in it has its own place alone
        places = [f"setattr -unset src t:{name}" for name in sorted(self.modules)]
        return SCRIPT.format(room=self.room, reading="\n".join(reading), cuts="\n".join(cuts),
                             top=self.given.top, places="\n".join(places))

    def named(self, words):
        """Returns words of yosys with the user's names of files."""
        for short, path in self.files:
            words = words.replace(short, path)
        return words

    def error(self, status, said):
        """Returns yosys's error in words that say what to do."""
        lines = [self.named(line) for line in said.splitlines() if "ERROR" in line]
        words = lines[0] if lines else f"yosys ended with status {status}"
        unknown = UNKNOWN.search(words)
        if unknown:
            kind, module, instance = unknown.groups()
            where = f"instance {instance} of module {module}"
            if kind in self.udps:
                hint = "a Liberty file (--lib) gives its function"
                return f"{where} is the UDP {kind} ({self.udps[kind]}): {hint}"
            return (f"{where}: there is no cell {kind}: --lib reads a Liberty file that has it; a"
                    f" module of that name with its ports, and --cut {kind}, cut it off")
        if "processes" in words:
            kind = re.search(r"[Mm]odule (\S+)", words)
            return (f"module {kind[1] if kind else '?'} has an always or initial block, which is"
                    " RTL: use verilog2bench, or give the module a Liberty cell (--lib)")
        return f"yosys: {words}"


def add_cut_cells(names, modules, cells):
    """Makes cells of the modules that --cut names."""
    for name in names:
        if name not in modules:
            raise Refused(f"--cut {name}: no instance of it")
        cell = cells[name] = Cell(name, is_cut=True)
        for port, at in modules[name]["ports"].items():
            pins = [indexed(port, place_of(at, place)) for place in range(len(at["bits"]))]
            cell.pins |= {pin: Pin(pin, at["direction"]) for pin in pins}
            cell.wide[port] = pins
