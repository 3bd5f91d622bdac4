#!/usr/bin/env python3
"""Forces faults at cells' pins of a netlist under Icarus Verilog, and compares with faultsim.

usage: inject.py --program FAULTSIM --bench BENCH --map MAP --tests TESTS [OPTION..] TOP NETLIST.v

  --lib CELLS.lib    as of netlist2bench; yosys's reader makes Verilog of cells without a state
  --states FILE.v    Verilog by hand of the others: NAME_fn for the cell NAME
  --hold PORT=0|1    as of netlist2bench
  --root PORT=EDGE   the clock, and its edge (rising or falling)
  --static PIN       no clock: a state's next value is read at this pin of its flip-flop
  --models M,..      the models (stuck,transition,transition-pairs)
  --many N           so many faults of each model (all), drawn by --seed N (1)

The netlist is the user's, each cell a wrapper whose pins can be forced. Each test is a cycle:
inputs are set, states are set just after an edge as a scan chain does, outputs are read while the
clock is idle, and states after one pulse. Nothing of netlist2bench is used for that but its names
of primitives. It compares all fault-free bits, and the first test of each fault. The status is 1
if one differs.
"""

import argparse
import os
import random
import re
import subprocess
import sys
import tempfile
from dataclasses import dataclass

here = os.path.dirname(os.path.realpath(__file__))
sys.path.insert(0, os.path.join(os.path.dirname(here), "netlist.d"))
sys.dont_write_bytecode = True
# pylint: disable=wrong-import-position
import liberty  # noqa: E402
from names import ports_of  # noqa: E402
from netlist import Options  # noqa: E402
from reading import Reading  # noqa: E402

MODELS = ("stuck", "transition", "transition-pairs")
FAULT = re.compile(r"((?:stem|pin|data|out) .*) (sa0|sa1|str|stf) (\d+|none)")


@dataclass(frozen=True)
class Fault:
    """A pin and its bit, with the first test that faultsim gives; an empty path is a port."""

    model: str
    path: str
    pin: str
    bit: int
    first: int


def called(name):
    return name if re.fullmatch(r"[A-Za-z_]\w*", name) else f"\\{name} "


class Map:
    """The rows of netlist2bench's map."""

    def __init__(self, path):
        with open(path, encoding="utf-8") as file:
            rows = [row.rstrip("\n").split("\t") for row in file]
        self.inputs, self.outputs, self.states = (
            [row[1:] for row in rows if row[0] == word] for word in ("input", "output", "state"))
        self.pins = [row[1:] for row in rows if row[0] == "pin" and row[5] != "-"]


def faults_of(given, model, pins, paths):
    """Draws faults of pins: undetected ones, late ones, ports, and any."""
    words = [given.program, "run", "-b", given.bench, "-t", given.tests, "--list"]
    shown = subprocess.run([*words, "-m", model], check=True, stdout=subprocess.PIPE,
                           text=True).stdout
    first = {}
    for line in shown.splitlines():
        found = FAULT.fullmatch(line)
        if found:
            at = -1 if found[3] == "none" else int(found[3])
            first[found[1], int(found[2] in ("sa1", "stf"))] = at
    pool = [Fault(model, path, pin, bit, first[site, bit]) for path, pin, _, _, site, *_ in pins
            for bit in (0, 1) if path in paths or not path]
    if not given.many or given.many >= len(pool):
        return pool, len(pool)
    late = sorted((of for of in pool if of.first >= 0), key=lambda of: -of.first)
    shares = (([of for of in pool if of.first < 0], 4), (late[:given.many], 4),
              ([of for of in pool if not of.path], 10), (pool, 1))
    chosen = {}
    for of, share in shares:
        rest = [one for one in of if one not in chosen]
        drawn = random.sample(rest, min(given.many // share, len(rest)))
        chosen |= dict.fromkeys(drawn[:given.many - len(chosen)])
    return list(chosen), len(pool)


def models_of(given, cells, used):
    """Returns Verilog of the functions of the cells that are used: NAME_fn for NAME."""
    text = ""
    if given.states:
        with open(given.states, encoding="utf-8") as file:
            text = file.read()
    hand = set(re.findall(r"module (\S+?)_fn\b", text))
    with tempfile.TemporaryDirectory() as room:
        reading = "; ".join(f"read_liberty -ignore_miss_func -ignore_miss_dir"
                            f" {os.path.abspath(lib)}" for lib in given.lib)
        script = f"{reading}; proc; write_verilog -noattr cells.v"
        if given.lib:
            subprocess.run(["yosys", "-q", "-p", script], check=True, cwd=room,
                           stdout=subprocess.DEVNULL)
            with open(f"{room}/cells.v", encoding="utf-8") as file:
                body = file.read()
            for found in re.finditer(r"^module (\S+) ?\(.*?^endmodule\n", body, re.S | re.M):
                name = found[1].lstrip("\\")
                if name in used - hand:
                    text += found[0].replace(f"module {found[1]}", f"module {name}_fn", 1)
    return text + "".join(primitive_of(cells[name]) for name in sorted(used) if name[:2] == "P_")


def primitive_of(cell):
    """Returns a module with Verilog's own primitive."""
    pins = ", ".join(cell.pins)
    ways = " ".join(f"{pin.way} {pin.name};" for pin in cell.pins.values())
    kind = cell.name.split("_")[1]
    return f"module {cell.name}_fn({pins}); {ways} {kind} g({pins}); endmodule\n"


def wrapper_of(cell):
    """Returns a module whose pin number F_ is forced to V_; L_n is pin n's value without that."""
    pins = [pin for pin in cell.pins.values() if pin.way != "internal"]
    text = f"module {cell.name}({', '.join(pin.name for pin in pins)}); reg [7:0] F_ = 0;"
    text += " reg V_ = 0;\n"
    for at, pin in enumerate(pins, 1):
        outer, inner = pin.name, f"{pin.name}_f"
        text += f" {pin.way} {outer}; wire {inner}; wire L_{at};\n"
        to, of = (inner, outer) if pin.way == "input" else (outer, inner)
        text += f" assign {to} = F_ == {at} ? V_ : {of}; assign L_{at} = {of};\n"
    joined = ", ".join(f".{pin.name}({pin.name}_f)" for pin in pins)
    return text + f" {cell.name}_fn m({joined});\nendmodule\n"


TESTBENCH = """module tb; integer G = 0, k, t; reg [{last}:0] seen = 0, was, gl; reg is_good;
{ports}
{top} dut({joined});
reg [{width}:0] rows [0:{tests}]; reg [{width}:0] row;
reg [{outs}:0] gp, np; reg [{states}:0] gs, ns; reg [{last}:0] bits = {bits};
reg [{last}:0] delayed = {delayed}, paired = {paired};
task one; begin row = rows[t]; {idle} #1;
{load_inputs}
#1 {active} #1
{load_states}
#1 {idle} #1 np = {{{shown}}}; if (is_good) gl = {{{lines}}};
{active} #1 ns = {{{next}}}; {idle} #1; end endtask
task again; begin {again} end endtask
function fits(input integer k);
 fits = !seen[k] && (!delayed[k] || t > 0 && was[k] === bits[k] && (!paired[k] || t % 2 == 1));
endfunction
task judge(input integer k); if (np !== gp || ns !== gs)
 begin seen[k] = 1; $display("first %0d %0d", k, t); end endtask
task all; begin
{faults}
end endtask
initial begin $readmemb("rows", rows); {held}
 for (t = 0; t <= {tests}; t = t + 1) begin
  is_good = 1; one; is_good = 0; gp = np; gs = ns; $display("good %b%b", np, ns);
  all; was = gl;
 end
 for (k = 0; k <= {last}; k = k + 1) if (!seen[k]) $display("first %0d -1", k);
 $finish; end
endmodule
"""


class Testbench:
    """Verilog that applies the tests, and forces the faults."""

    def __init__(self, given, netlist, faults):
        self.given, self.netlist, self.faults = given, netlist, faults
        self.module, self.cells, self.map = netlist
        self.parts = {"/".join(parts_of(name, at)): parts_of(name, at)
                      for name, at in self.module["cells"].items()}
        self.kinds = {"/".join(parts_of(name, at)): at["type"]
                      for name, at in self.module["cells"].items()}
        self.declared, self.joined, self.port = [], [], {}
        for way in ("input", "output"):
            self.add_ports(way)

    def hier(self, path):
        return "dut." + ".".join(called(part) for part in self.parts[path])

    def number(self, path, pin):
        cell = self.cells[self.kinds[path]]
        return 1 + [one.name for one in cell.pins.values() if one.way != "internal"].index(pin)

    def add_ports(self, way):
        """Declares a vector for each port; an input with a fault goes through a multiplexer."""
        ports = {}
        for port in ports_of(self.module, way):
            ports.setdefault(port.name, []).append(port)
        for at, (name, bits) in enumerate(ports.items()):
            # the connection's leftmost bit is the port's last one in the JSON
            order = [port.bit for port in bits]
            json = self.module["ports"][name]["bits"]
            vector = f"{way[0]}{at}"
            place = {bit.label: json.index(order[k]) for k, bit in enumerate(bits)}
            last = len(bits) - 1
            self.port |= {label: f"{vector}[{k}]" for label, k in place.items()}
            kind = "reg" if way == "input" else "wire"
            start = " = 0" if way == "input" else ""
            self.declared.append(f"{kind} [{last}:0] {vector}{start};")
            if way == "input":
                self.declared.append(f"wire [{last}:0] {vector}_f;")
                self.declared += [f"assign {vector}_f[{k}] = "
                                  f"{self.forced(label, f'{vector}[{k}]')};"
                                  for label, k in place.items()]
            self.joined.append(f".{called(name)}({vector}{'_f' * (way == 'input')})")

    def forced(self, label, value):
        """Returns a port's value, or the bit of its fault."""
        own = [(k, of.bit) for k, of in enumerate(self.faults, 1)
               if not of.path and of.pin == label]
        return "".join(f"G == {k} ? 1'b{bit} : " for k, bit in own) + value

    def try_of(self, at, fault):
        """Returns the lines that apply a test with a fault."""
        on, off = f"G = {at + 1};", "G = 0;"
        if fault.path:
            hier, number = self.hier(fault.path), self.number(fault.path, fault.pin)
            on, off = f"{hier}.V_ = {fault.bit}; {hier}.F_ = {number};", f"{hier}.F_ = 0;"
        return f"if (fits({at})) begin {on} again; judge({at}); {off} #1; end"

    def line_of(self, fault):
        """Returns the value of a fault's pin without the fault."""
        if not fault.path:
            return self.port[fault.pin]
        return f"{self.hier(fault.path)}.L_{self.number(fault.path, fault.pin)}"

    def vector(self, bit_of):
        """Returns a constant with a bit for each fault, the first one rightmost."""
        bits = "".join(str(int(bit_of(of))) for of in reversed(self.faults))
        return f"{len(bits)}'b{bits}"

    def pulse(self):
        """Returns the lines that make the clock idle and active."""
        port, _, edge = (self.given.root or "").partition("=")
        if not port:
            return "", ""
        low, high = f"{self.port[port]} = 0;", f"{self.port[port]} = 1;"
        return (high, low) if edge == "falling" else (low, high)

    def text(self, tests):
        rows, inputs, states = self.map, self.map.inputs, self.map.states
        width, given = len(inputs) + len(states), self.given
        is_static = bool(given.static)
        idle, active = ("", "") if is_static else self.pulse()
        outs = [self.forced(name, self.port[name]) for _, name in rows.outputs] or ["1'b0"]
        nexts = [f"{self.hier(one)}.m.{given.static or state}" for _, one, state, *_ in states]
        nexts = nexts or ["1'b0"]
        again = "one;" if not is_static else (
            f"#1 np = {{{', '.join(outs)}}}; ns = {{{', '.join(nexts)}}};")
        held = [word.partition("=") for word in given.hold]
        return TESTBENCH.format(
            last=len(self.faults) - 1, width=width - 1,
            ports="\n".join(self.declared), top=called(given.top), joined=", ".join(self.joined),
            lines=", ".join(self.line_of(of) for of in reversed(self.faults)),
            bits=self.vector(lambda of: of.bit),
            delayed=self.vector(lambda of: of.model != "stuck"),
            paired=self.vector(lambda of: of.model == "transition-pairs"),
            tests=len(tests) - 1, outs=len(outs) - 1, states=len(nexts) - 1, idle=idle,
            active=active, again=again, shown=", ".join(outs), next=", ".join(nexts),
            load_inputs="\n".join(f"{self.port[name]} = row[{width - 1 - at}];"
                                  for at, (_, name) in enumerate(inputs)),
            load_states="\n".join(f"{self.hier(one)}.m.{state} = row[{len(states) - 1 - at}];"
                                  for at, (_, one, state, *_) in enumerate(states)),
            faults="\n".join(self.try_of(at, of) for at, of in enumerate(self.faults)),
            held=" ".join(f"{self.port[port]} = {bit};" for name, _, bit in held
                          for port in self.port if name in (port, port.rpartition("[")[0])))


def parts_of(name, at):
    """Returns the names on the way to an instance."""
    return at.get("attributes", {}).get("hdlname", name).split()


def parsed():
    parser = argparse.ArgumentParser(usage=__doc__.split("usage: ")[1].split("\n")[0])
    for name in ("lib", "hold", "cut"):
        parser.add_argument(f"--{name}", action="append", default=[])
    for name in ("states", "root", "static"):
        parser.add_argument(f"--{name}")
    for name in ("program", "bench", "map", "tests"):
        parser.add_argument(f"--{name}", required=True)
    parser.add_argument("--models", type=lambda text: text.split(","), default=MODELS)
    parser.add_argument("--many", type=int, default=0)
    parser.add_argument("--seed", type=int, default=1)
    parser.add_argument("top")
    parser.add_argument("netlist")
    return parser.parse_args()


def simulated(verilog, tests):
    """Returns the fault-free rows of Icarus, and the first test of each fault."""
    with tempfile.TemporaryDirectory(prefix="inject-") as room:
        for name, text in (("all.v", verilog), ("rows", "\n".join(tests) + "\n")):
            with open(f"{room}/{name}", "w", encoding="utf-8") as file:
                file.write(text)
        words = ["iverilog", "-g2005-sv", "-o", "sim", "-s", "tb", "all.v"]
        subprocess.run(words, check=True, cwd=room, stderr=subprocess.DEVNULL)
        out = subprocess.run(["vvp", "-n", "./sim"], cwd=room, check=True,
                             stdout=subprocess.PIPE, text=True).stdout.splitlines()
    good = [line[5:] for line in out if line.startswith("good ")]
    first = dict(map(int, line.split()[1:]) for line in out if line.startswith("first "))
    return good, first


def main():
    given = parsed()
    random.seed(given.seed)
    cells = {}
    for lib in given.lib:
        cells = liberty.read(lib) | cells
    options = Options(top=given.top, files=[given.netlist], cut=given.cut)
    with tempfile.TemporaryDirectory(prefix="inject-") as room:
        reading = Reading(options, cells, room)
        module = reading.module()
        with open(reading.files[0][0], encoding="utf-8") as file:
            text = file.read()
    rows, used = Map(given.map), {at["type"] for at in module["cells"].values()}
    used = {name for name in used if name[0] != "$"}
    paths = {"/".join(parts_of(name, at)) for name, at in module["cells"].items()}
    faults, count = [], 0
    for model in given.models:
        chosen, pool = faults_of(given, model, rows.pins, paths)
        faults, count = faults + chosen, count + pool
    with open(given.tests, encoding="utf-8") as file:
        tests = [line.split("#")[0].strip() for line in file]
    tests = [test for test in tests if test]
    text += models_of(given, cells, used) + "".join(wrapper_of(cells[name]) for name in used)
    text += Testbench(given, (module, cells, rows), faults).text(tests)
    good, first = simulated(text, tests)
    sys.exit(compare(given, rows, (good, first), faults, count))


def compare(given, rows, icarus, faults, count):
    """Prints what differs; returns whether anything does."""
    good, first = icarus
    words = [given.program, "responses", "-b", given.bench, "-t", given.tests]
    wanted = subprocess.run(words, check=True, stdout=subprocess.PIPE, text=True).stdout
    wanted, outs = wanted.split("\n")[:-1], max(len(rows.outputs), 1)
    good = [(line[:outs] if rows.outputs else "") + (line[outs:] if rows.states else "")
            for line in good]
    wrong = [at for at, pair in enumerate(zip(good, wanted)) if pair[0] != pair[1]]
    missing = len(good) != len(wanted) or len(first) != len(faults)
    bad = [(fault, first.get(at)) for at, fault in enumerate(faults)
           if first.get(at) != fault.first]
    for fault, at in bad[:10]:
        print(f"  {fault}: Icarus {at}")
    undetected = sum(of.first < 0 for of in faults)
    print(f"{given.top}: {len(good)} tests of {len(rows.outputs + rows.states)}"
          f" bits: {len(wrong)} differ; {len(faults)} of {count} faults at pins ({undetected}"
          f" undetected): {len(bad)} differ")
    return bool(wrong or bad or missing)


if __name__ == "__main__":
    main()
