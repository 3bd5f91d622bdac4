"""Compares RTL with the bench file made of it under Icarus Verilog: random states and inputs."""

import random
import re
import shutil
import subprocess

from dump import NoName, Paths
from primitives import Refused

OPERATORS = {"AND": ("", "&"), "NAND": ("~", "&"), "OR": ("", "|"), "NOR": ("~", "|"),
             "XOR": ("", "^"), "XNOR": ("~", "^"), "NOT": ("~", "&"), "BUFF": ("", "&")}
NO_LVALUE = re.compile(r"all\.v:(\d+): error")
# of each clock and edge, whose flip-flops alone have a next state then
DOMAIN = """    {idle} #1;
{inputs}
    #1;
{loads}
    #1; now = shown; if (now !== own) bad = 1;
    {active} #1;
    if ((states & {mask}) !== (next & {mask})) bad = 1;"""
TESTBENCH = """
module verilog2bench_check; integer t, wrong = 0; reg bad; reg [{sources}:0] rows [0:{last}], row;
{ports}
{top} dut({joined});
wire [{outs}:0] shown = {{{shown}}}; wire [{nexts}:0] states = {{{states}}};
wire [{outs}:0] own; wire [{nexts}:0] next; reg [{outs}:0] now;
verilog2bench_bench bench (row, own, next);
initial begin
  $readmemb("rows", rows);
  for (t = 0; t <= {last}; t = t + 1) begin
    row = rows[t]; bad = 0;
{domains}
    wrong = wrong + bad;
    if (wrong == 1 && bad)
      $display("row %b: RTL %b %b, bench %b %b", row, now, states, own, next);
  end
  $display("%0d of {count} differ", wrong);
  $finish;
end
endmodule
"""


def escaped(name):
    return f"\\{name} "


def constant(bits):
    """Returns a constant of Verilog, in pieces: Icarus reads no word of 16,384 characters."""
    pieces = [bits[at:at + 4096] for at in range(0, len(bits), 4096)] or ["0"]
    return "{" + ", ".join(f"{len(piece)}'b{piece}" for piece in pieces) + "}"


def bench_module(bench):
    """Returns the bench file as Verilog: a row of sources in, outputs and next states out."""
    sources = [line for line, _ in bench.inputs] + [flop.name for flop in bench.flops]
    text = [f"module verilog2bench_bench(input [{len(sources) - 1}:0] row,"
            f" output [{max(len(bench.outputs), 1) - 1}:0] own,"
            f" output [{max(len(bench.flops), 1) - 1}:0] next);"]
    lines = sources + [gate.name for gate in bench.gates]
    text += [f"wire {escaped(name)};" for name in lines]
    text += [f"assign {escaped(name)} = row[{len(sources) - 1 - at}];"
             for at, name in enumerate(sources)]
    for gate in bench.gates:
        sign, operator = OPERATORS[gate.kind]
        pins = operator.join(map(escaped, gate.pins))
        text.append(f"assign {escaped(gate.name)} = {sign}({pins});")
    outs = ", ".join(escaped(line) for line, _ in bench.outputs) or "1'b0"
    nexts = ", ".join(escaped(flop.data) for flop in bench.flops) or "1'b0"
    return "\n".join(text + [f"assign own = {{{outs}}}, next = {{{nexts}}};", "endmodule"])


class Check:
    """Compares one design; `registers` has all names of its states."""

    def __init__(self, writer, given, registers):
        self.writer, self.given, self.registers = writer, given, registers
        self.bench, self.n = writer.bench, writer.n
        self.paths = Paths("dut", self.n.names)
        self.labels = [self.n.called(flop.instance.nets["Q"]) for flop in self.bench.flops]
        if any(flop.instance.nets["Q"] not in self.n.names.verilog for flop in self.bench.flops):
            raise NoName("--check: yosys made registers that the Verilog doesn't have")
        # by which of its names a state is set, if not by the first
        self.choice = {}

    def path(self, label):
        found = re.fullmatch(r"(.*)\[(-?\d+)\]", label)
        if found and label not in self.n.module["netnames"]:
            return self.paths.of(found[1], int(found[2]))
        return self.paths.of(label, None)

    def ports(self):
        """Returns declarations, connections, and {label of a port's bit: its bit}."""
        declared, joined, place = [], [], {}
        for name, port in self.n.module["ports"].items():
            own = [one for one in self.n.inputs + self.n.outputs if one.name == name]
            kind, at = ("reg", "i") if port["direction"] == "input" else ("wire", "o")
            vector = f"{at}{len(joined)}"
            declared.append(f"{kind} [{len(own) - 1}:0] {vector};")
            joined.append(f".{escaped(name)}({vector})")
            upto = self.n.module["netnames"][name].get("upto")
            order = sorted(own, key=lambda one: one.index or 0, reverse=bool(upto))
            place |= {one.label: f"{vector}[{k}]" for k, one in enumerate(order)}
        return declared, joined, place

    def loads(self):
        """Returns the lines that set all states, those without a line in the bench file too."""
        last = len(self.labels) - 1
        place = {label: f"row[{last - k}]" for k, label in enumerate(self.labels)}
        found = [f"    {self.path(self.registers.others(label)[self.choice.get(label, 0)])} ="
                 f" {place[label]};" for label in self.labels]
        for names, of in self.registers.followers():
            value = place.get(of, f"1'b{of}")
            found.append(f"    {self.path(names[self.choice.get(names[0], 0)])} = {value};")
        return found

    def domain(self, key, place, inputs, loads):
        """Returns the lines that apply a row, and one edge of one clock."""
        clocks = {self.n.called(root): int(key == (root, falling) and falling)
                  for root, falling in self.writer.roles.domains if root is not None}
        root, falling = key
        clock = self.n.called(root) if root is not None else None
        clocks |= {clock: int(falling)} if clock else {}
        idle = " ".join(f"{place[name]} = {level};" for name, level in clocks.items())
        active = f"{place[clock]} = {int(not falling)};" if clock else ""
        bits = "".join(str(int(flop.edge[:2] == key)) for flop in self.bench.flops)
        return DOMAIN.format(idle=idle, inputs="\n".join(inputs), loads="\n".join(loads),
                             active=active, mask=constant(bits))

    def text(self, count):
        """Returns the testbench."""
        bench = self.bench
        declared, joined, place = self.ports()
        width = len(bench.inputs) + len(bench.flops)
        domains = list(self.writer.roles.domains) or [(None, False)]
        clocks = {self.n.called(root) for root, _ in domains if root is not None}
        states = [self.path(label) for label in self.labels]
        inputs = [f"    {place[name]} = row[{width - 1 - k}];"
                  for k, (_, name) in enumerate(bench.inputs) if name not in clocks]
        loads = self.loads()
        return TESTBENCH.format(
            sources=width - 1, last=count - 1, count=count, ports="\n".join(declared),
            top=escaped(self.given.top), joined=", ".join(joined),
            outs=max(len(bench.outputs), 1) - 1, nexts=max(len(states), 1) - 1,
            shown=", ".join(place[name] for _, name in bench.outputs) or "1'b0",
            states=", ".join(states) or "1'b0",
            domains="\n".join(self.domain(key, place, inputs, loads) for key in domains))

    def compile(self, room, count):
        """Compiles the testbench; a state that is a net is set by another of its names."""
        given = self.given
        while True:
            text = self.text(count)
            with open(f"{room}/all.v", "w", encoding="utf-8") as file:
                file.write(bench_module(self.bench) + text)
            words = ["iverilog", "-g2012", "-o", f"{room}/sim", "-s", "verilog2bench_check"]
            words += [f"-D{word}" for word in given.define]
            words += [f"-I{word}" for word in given.include]
            ran = subprocess.run([*words, f"{room}/all.v", *given.files], check=False,
                                 stdout=subprocess.PIPE, stderr=subprocess.STDOUT, text=True)
            if not ran.returncode:
                return
            if not self.next_names(text, ran.stdout):
                raise Refused(f"--check: iverilog: {ran.stdout.splitlines()[0]}")

    def next_names(self, text, said):
        """Takes the next name of each state that Icarus couldn't set."""
        first = len(bench_module(self.bench).split("\n"))
        lines = text.split("\n")
        bad = {lines[int(at) - first].strip().partition(" = ")[0] for at in NO_LVALUE.findall(said)
               if 0 <= int(at) - first < len(lines)}
        is_changed = False
        known = {names[0]: names for names, _ in self.registers.followers()}
        known |= {label: self.registers.others(label) for label in self.labels}
        for label, names in known.items():
            at = self.choice.get(label, 0)
            if f"{self.path(names[at])}" in bad and at + 1 < len(names):
                self.choice[label] = at + 1
                is_changed = True
        return is_changed

    def run(self, room, count):
        """Compares `count` rows; returns what it compared, or refuses the netlist."""
        if shutil.which("iverilog") is None:
            raise Refused("--check: there is no iverilog (Debian: apt-get install iverilog)")
        draw = random.Random(1)
        width = len(self.bench.inputs) + len(self.bench.flops)
        with open(f"{room}/rows", "w", encoding="utf-8") as file:
            for _ in range(count):
                file.write(f"{draw.getrandbits(width):0{width}b}\n")
        self.compile(room, count)
        ran = subprocess.run(["vvp", "-n", "./sim"], cwd=room, check=False, text=True,
                             stdout=subprocess.PIPE, stderr=subprocess.STDOUT)
        last = ran.stdout.splitlines()[-1:] or [""]
        what = (f"{count} rows of random inputs and states: {len(self.bench.outputs)} outputs and"
                f" {len(self.bench.flops)} next states")
        if last[0] != f"0 of {count} differ":
            raise Refused(f"--check: {what}: RTL and bench file: {' '.join(ran.stdout.split())}")
        return f"checked under Icarus Verilog: {what} are those of the RTL"
