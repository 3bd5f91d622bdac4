"""Names of ports and nets, and their order."""

import re
from dataclasses import dataclass


def natural(name):
    """Returns a key by which d[9] comes before d[10]."""
    parts = re.split(r"(\d+)", name)
    return [(int(part) if part.isdigit() else 0, part) for part in parts]


def place_of(net, place):
    """Returns the index of a bit in its net's range, or None for a scalar."""
    if len(net["bits"]) == 1 and not net.get("offset"):
        return None
    return net.get("offset", 0) + (len(net["bits"]) - 1 - place if net.get("upto") else place)


def indexed(name, index):
    return name if index is None else f"{name}[{index}]"


def short(src):
    """Returns file:line of yosys's src."""
    found = re.match(r"(.*?:\d+)", src.split("|")[0])
    return found[1] if found else ""


@dataclass(frozen=True)
class Port:
    """One bit of a port."""

    name: str
    index: object
    bit: object

    @property
    def label(self):
        return indexed(self.name, self.index)


def ports_of(module, way):
    """Returns the bits of the ports of one direction, in the order of their names."""
    found = []
    for name, port in module["ports"].items():
        if port["direction"] == way:
            net = {**port, **module["netnames"].get(name, {})}
            found += [Port(name, place_of(net, at), bit) for at, bit in enumerate(port["bits"])]
    return sorted(found, key=lambda port: (natural(port.name), port.index or 0))


class NetNames:
    """The name of each bit: a port's, else the shortest of the design; hidden nets have none.

    With a separator the parts of a name are those of `hdlname`, the instances on the way to it.
    """

    def __init__(self, module, separator=None):
        best = {}
        # of each name: the names on the way to the signal, none of them an array
        self.paths = {name: [name] for name in module["ports"]}
        for name, net in module["netnames"].items():
            if separator:
                self.paths[name] = net.get("attributes", {}).get("hdlname", name).split()
            port = module["ports"].get(name, {}).get("direction")
            levels = len(self.paths.get(name, [name])), name.count(".")
            rank = (port != "input", port is None, bool(net.get("hide_name")), levels, len(name))
            for place, bit in enumerate(net["bits"]):
                if isinstance(bit, int) and (bit not in best or (rank, name) < best[bit][0]):
                    best[bit] = ((rank, name), name, place_of(net, place), rank[2])
        self.verilog = {bit: (name, index) for bit, (_, name, index, hidden) in best.items()
                        if not hidden}
        self.separator = separator

    def called(self, bit):
        """Returns what the Verilog calls a bit, or n and its number."""
        if bit not in self.verilog:
            return f"n{bit}"
        name, index = self.verilog[bit]
        parts = self.paths[name] if self.separator else [name]
        return indexed((self.separator or "").join(parts), index)
