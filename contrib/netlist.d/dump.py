"""Verilog for a testbench, which writes tests, each with its response as a comment."""

import re

from names import indexed

# A row is written by one call, since a simulator may end between two.
CLOCKED = """
integer dump_tests;
reg dump_before, dump_fits;
reg [{sources}:0] dump_row;
reg [{outputs}:0] dump_shown;
initial begin
  dump_before = 0;
  dump_tests = $fopen("{top}.tests");
{columns}
end
always @({edge} {clock}) begin
  if (dump_before && !dump_fits)
    $fdisplay(dump_tests, "# left out before %0t: a held input has another bit", $time);
  else if (dump_before && ^{{dump_row, dump_shown, dump_state}} === 1'bx)
    $fdisplay(dump_tests, "# left out before %0t: X or Z", $time);
  else if (dump_before)
    $fdisplay(dump_tests, "%b # {shown}%b", dump_row, {values}dump_state);
  dump_row = dump_sources;
  dump_shown = dump_outputs;
  dump_fits = {fits};
  dump_before = 1;
end
"""
PLAIN = """
integer dump_tests;
initial begin
  dump_tests = $fopen("{top}.tests");
{columns}
end
task dump;
  if (^{{dump_sources, dump_outputs}} === 1'bx)
    $fdisplay(dump_tests, "# left out at %0t: X or Z", $time);
  else
    $fdisplay(dump_tests, "%b # %b", dump_sources, dump_outputs);
endtask
"""
WORD = r"[A-Za-z_][\w$]*"


class NoName(Exception):
    """What a testbench would have to read has no name in the Verilog."""


def vector(name, bits):
    """Returns a wire of many bits of the design, the first of them leftmost."""
    if not bits:
        raise NoName("--dump wants a circuit that has inputs and outputs")
    lines, line = [], "  "
    for at, bit in enumerate(bits):
        word = bit + ("," if at + 1 < len(bits) else "")
        if len(line) + len(word) > 99:
            lines.append(line.rstrip())
            line = "  "
        line += word + " "
    return "\n".join([f"wire [{len(bits) - 1}:0] {name} = {{", *lines, line.rstrip(), "};"])


def columns_of(names):
    """Returns the lines that write the names of a row's bits, as the first comment of the file.

    Icarus Verilog reads no string of many thousands of characters, so each call writes a few.
    """
    words = [word.replace("\\", "\\\\").replace('"', '\\"').replace("%", "%%") for word in names]
    lines, line = ['  $fwrite(dump_tests, "# columns:");'], ""
    for word in [*words, None]:
        if line and (word is None or len(line) + len(word) > 60):
            lines.append(f'  $fwrite(dump_tests, "{line}");')
            line = ""
        line += f" {word}"
    return "\n".join([*lines, '  $fdisplay(dump_tests, "");'])


class Paths:
    """Signals as a testbench calls them; a name with other characters than usual is escaped."""

    def __init__(self, instance, names):
        self.instance, self.names = instance, names

    def of(self, name, index):
        paths = self.names.paths
        plain = re.compile(WORD if name in paths else WORD + r"(\[-?\d+\])*")
        parts = paths.get(name) or name.split(".")
        parts = (part if plain.fullmatch(part) else f"\\{part} " for part in parts)
        return indexed(f"{self.instance}.{'.'.join(parts)}", index)

    def net(self, bit, what):
        """Returns the path of a net that has a name in the Verilog."""
        if bit not in self.names.verilog:
            raise NoName(f"--dump: {what} has no name in the Verilog")
        return self.of(*self.names.verilog[bit])


def fitting(writer, paths):
    """Returns the condition of a cycle in which the inputs of --hold have their bits."""
    held = [(paths.of(port.name, port.index), writer.n.held[port.bit])
            for port in writer.n.inputs if port.bit in writer.n.held]
    return " && ".join(f"{path} === 1'b{bit}" for path, bit in held) or "1"


def dump(writer, instance, inputs, states, outputs):
    """Returns the lines of a testbench; `inputs`, `states`, `outputs` are paths of their bits."""
    top, bench = writer.given.top, writer.bench
    names = [line for line, _ in bench.inputs] + [flop.name for flop in bench.flops]
    text = [f"// {top}: include it in the testbench."]
    text += [vector("dump_sources", inputs + states), vector("dump_outputs", outputs or states)]
    fill = {"top": top, "columns": columns_of(names)}
    if not bench.flops:
        return "\n".join(text) + PLAIN.format(**fill)
    text.append(vector("dump_state", states))
    root, falling = next(iter(writer.roles.domains))
    paths = Paths(instance, writer.n.names)
    fill |= {"clock": paths.net(root, "the clock"), "fits": fitting(writer, paths)}
    fill["edge"] = "negedge" if falling else "posedge"
    fill |= {"sources": len(inputs + states) - 1, "outputs": len(outputs or states) - 1}
    fill |= {"shown": "%b" * bool(outputs), "values": "dump_shown, " * bool(outputs)}
    return "\n".join(text) + CLOCKED.format(**fill)


def state_net(names, flop):
    """Returns a net with a name that shows a flip-flop's state, and whether it is inverted."""
    one, state = flop.instance, flop.state
    inverted = next(other for own, other, _ in one.cell.flops if own == state)
    for pin in one.cell.outputs():
        if one.nets.get(pin.name) in names.verilog:
            if pin.function in (("v", state), ("!", ("v", inverted))):
                return one.nets[pin.name], False
            if pin.function in (("v", inverted), ("!", ("v", state))):
                return one.nets[pin.name], True
    return None


def state_path(paths, flop):
    """Returns the path of a flip-flop's state."""
    found = state_net(paths.names, flop)
    if found is None:
        raise NoName(f"--dump: no output of {flop.instance} shows its state")
    return "~" * found[1] + paths.net(found[0], flop.instance.path)


def scope_path(names, bit):
    """Returns a net as a VCD file calls it below the circuit's scope."""
    name, index = names.verilog[bit]
    return indexed(".".join(names.paths.get(name) or [name]), index)


def dump_of_netlist(writer, instance):
    """Returns the lines of a testbench of a netlist of cells."""
    paths = Paths(instance, writer.n.names)
    labels = {port.label: port for port in writer.n.inputs + writer.n.outputs}
    ports = writer.bench.inputs + writer.bench.outputs
    cut = next((name for _, name in ports if name not in labels), None)
    if cut:
        raise NoName(f"--dump: {cut} is a pin of a black box")
    inputs, outputs = ([paths.of(labels[name].name, labels[name].index) for _, name in of]
                       for of in (writer.bench.inputs, writer.bench.outputs))
    states = [state_path(paths, flop) for flop in writer.bench.flops]
    return dump(writer, instance, inputs, states, outputs)
