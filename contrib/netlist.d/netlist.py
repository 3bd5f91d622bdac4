"""A flat netlist of cells: instances, nets, drivers, and the nets that are constants."""

from dataclasses import dataclass, field

from liberty import Cell, Pin, expression
from logic import simple
from names import NetNames, ports_of, short
from primitives import Refused

# what yosys's parser makes of an assign with an operator
OPERATORS = {"$not": "!A", "$pos": "A", "$and": "A&B", "$or": "A|B", "$xor": "A^B",
             "$xnor": "(A^B)'", "$mux": "(A&!S)|(B&S)", "$logic_not": "!A",
             "$logic_and": "A&B", "$logic_or": "A|B"}


class WrongCall(Exception):
    """An error of the command line."""


@dataclass
class Options:
    """What the caller chooses: options of the command line, and what differs for RTL."""

    top: str = ""
    files: list = field(default_factory=list)
    hold: list = field(default_factory=list)
    clock: list = field(default_factory=list)
    cut: list = field(default_factory=list)
    define: list = field(default_factory=list)
    include: list = field(default_factory=list)
    clocks: str = "one"
    asynchronous: str = "hold"
    scan: str = "count"
    scan_pins: tuple = ()
    gating: str = "checked"
    undriven: object = None
    # of RTL: a clock may be data, too, and constant outputs have no line
    is_rtl: bool = False


class Instance:
    """An instance of a cell. `without` has a word for each pin that has no faults."""

    __slots__ = ("path", "cell", "nets", "src", "without", "fate")

    def __init__(self, path, cell, nets, src):
        self.path, self.cell, self.nets, self.src = path, cell, nets, src
        self.without = {}
        self.fate = None

    def __str__(self):
        return f"instance {self.path} ({self.cell.name})"

    def outputs(self):
        """The nets of its outputs."""
        return [bit for pin, bit in self.nets.items() if self.cell.pins[pin].way == "output"]

    def inputs(self):
        """The nets of its inputs."""
        return [bit for pin, bit in self.nets.items() if self.cell.pins[pin].way == "input"]


class Netlist:
    """The instances of a module of yosys's JSON, with cells from Liberty files."""

    def __init__(self, module, cells, given):
        self.module, self.cells, self.given = module, cells, given
        for port in ports_of(module, "inout"):
            hint = "cut the pad cells off and give the module below as TOP"
            raise Refused(f"port {port.label} is inout: {hint}")
        self.inputs, self.outputs = ports_of(module, "input"), ports_of(module, "output")
        self.names = NetNames(module, None if given.is_rtl else "/")
        # cells that are an operator of an assign, and the gates that they are
        self.instances, self.operators, self.assigns = [], 0, 0
        for name, at in module["cells"].items():
            self.add(name, at)
        self.drive()
        self.tie()

    def called(self, bit):
        return self.names.called(bit)

    def add(self, name, at):
        """Adds a cell of the JSON."""
        kind, attributes = at["type"], at.get("attributes", {})
        src = short(attributes.get("src", ""))
        if kind in OPERATORS and kind not in self.cells:
            self.add_operator(kind, at["connections"], name, src)
            return
        path = "/".join(attributes.get("hdlname", name).split())
        cell = self.cells.get(kind)
        if cell is None and kind[0] == "$":
            raise Refused(f"{src}: an operator ({kind}), which is RTL: use verilog2bench")
        if cell is None:
            hint = f"--cut {kind} makes its outputs inputs of the tests, and its inputs outputs"
            raise Refused(f"instance {path} is {kind}, a black box: {hint}")
        if cell.trouble and not cell.is_cut:
            raise Refused(f"instance {path} is {kind}, a cell with {cell.trouble}: --cut {kind}")
        nets = {}
        for port, bits in at["connections"].items():
            nets |= dict(zip(cell.wide.get(port, [port]), bits))
        if self.given.is_rtl and name.startswith("$"):
            # a cell that yosys made is called by its net
            path = self.called(next(nets[pin.name] for pin in cell.outputs()))
        self.instances.append(Instance(path, cell, nets, src))

    def add_operator(self, kind, connections, name, src):
        """Adds a gate for each bit of an assign with an operator."""
        pins = [pin for pin in "ABS" if pin in connections]
        width = len(connections["Y"])
        wrong = [pin for pin in pins if len(connections[pin]) != (1 if pin == "S" else width)]
        if wrong or kind.startswith("$logic") and width > 1:
            raise Refused(f"{src}: an assign with {kind} of other widths: no netlist of cells")
        cell = self.cells.setdefault(f"assign {kind}", Cell(f"assign {kind}"))
        if not cell.pins:
            cell.pins = {pin: Pin(pin, "input") for pin in pins}
            cell.pins["Y"] = Pin("Y", "output", expression(OPERATORS[kind]))
        above = name.split(".")[:-1] if not name.startswith("$") else []
        self.operators += 1
        for at in range(width):
            self.assigns += 1
            path = "/".join([*above, f"assign{self.assigns}"])
            nets = {pin: connections[pin][0 if pin == "S" else at] for pin in [*pins, "Y"]}
            self.instances.append(Instance(path, cell, nets, src))

    def drive(self):
        """Finds the driver and the readers of each net."""
        self.driver = {port.bit: (None, port.label) for port in self.inputs}
        self.readers = {}
        for one in self.instances:
            for name, bit in one.nets.items():
                way = one.cell.pins[name].way
                if way == "input":
                    self.readers.setdefault(bit, []).append((one, name))
                elif way == "inout":
                    raise Refused(f"{one}: pin {name} is inout: cut the pad cells off")
                else:
                    self.add_driver(one, name, bit)

    def add_driver(self, one, name, bit):
        if not isinstance(bit, int):
            raise Refused(f"{one}: its output {name} is tied to {bit}")
        if bit in self.driver:
            other, what = self.driver[bit]
            both = f"{other.path}/{what}" if other else f"port {what}"
            raise Refused(f"signal {self.called(bit)} has two drivers: {both} and"
                          f" {one.path}/{name}")
        self.driver[bit] = (one, name)

    def tie(self):
        """Finds the nets that are constants: tied, held, or of a cell whose output then is one."""
        self.held = self.held_inputs()
        self.known = {"0": 0, "1": 1, **self.held}
        self.loose = self.loose_nets()
        self.known |= self.loose
        todo = list(self.known)
        for one in self.instances:
            if any(pin.function and pin.function[0] == "c" for pin in one.cell.outputs()):
                todo += self.fold(one)
        while todo:
            for one, _ in self.readers.get(todo.pop(), []):
                todo += self.fold(one)

    def held_inputs(self):
        """The bits of the inputs that --hold names."""
        held = {}
        for word in self.given.hold:
            name, _, bit = word.partition("=")
            if bit not in ("0", "1"):
                raise WrongCall(f"--hold {word}: PORT=0 or PORT=1 is wanted")
            found = [port for port in self.inputs if name in (port.label, port.name)]
            if not found:
                raise WrongCall(f"--hold {word}: there is no input {name}")
            held |= {port.bit: int(bit) for port in found}
        return held

    def loose_nets(self):
        """The nets that are read and have no driver, with the bit of --undriven."""
        read = [*self.readers, *(port.bit for port in self.outputs)]
        loose = [bit for bit in read if bit not in self.driver and bit not in ("0", "1")]
        if loose and self.given.undriven is None:
            bit = loose[0]
            at = self.readers.get(bit)
            ports = [port.label for port in self.outputs if port.bit == bit]
            where = f"pin {at[0][0].path}/{at[0][1]} reads" if at else f"output {ports[0]} is"
            what = f"signal {self.called(bit)}" if isinstance(bit, int) else f"the constant {bit}"
            hint = "--undriven 0 or 1 ties all of these"
            if self.given.is_rtl:
                hint = "--before 'setundef -undriven -zero' ties it to 0"
            raise Refused(f"{where} {what}, which has no driver: {hint}")
        return {bit: int(self.given.undriven) for bit in loose}

    def fold(self, one):
        """Returns the outputs of an instance that are found to be constants."""
        if one.cell.has_state() or one.cell.is_cut:
            return []
        known, found = self.pins_known(one), []
        for pin in one.cell.outputs():
            bit = one.nets.get(pin.name)
            if bit is not None and bit not in self.known and pin.function is not None:
                e = simple(pin.function, known)
                if e[0] == "c":
                    self.known[bit] = e[1]
                    found.append(bit)
        return found

    def pins_known(self, one):
        """The bits of an instance's inputs that are constants."""
        return {pin: self.known[bit] for pin, bit in one.nets.items()
                if bit in self.known and one.cell.pins[pin].way == "input"}
