"""Where the lines of a circuit are: the rows of a map of verilog2bench or netlist2bench."""


class Places:
    """The rows of a map: places of RTL by line, pins and instances by site."""

    def __init__(self, path):
        self.lines, self.sites, self.outputs = {}, {}, []
        with open(path, encoding="utf-8") as file:
            for row in file:
                self.add(row.rstrip("\n").split("\t"))

    def add(self, cells):
        kind = cells[0]
        if kind == "line":
            self.lines[cells[1]] = cells[2:]
        elif kind == "output":
            self.outputs.append(cells[1])
        elif kind == "inside" and cells[2] != "-":
            self.sites.setdefault(cells[1], []).append(f"inside {cells[2]}")
        elif kind == "inside":
            self.sites.setdefault(cells[1], []).append("a constant")
        elif kind == "pin" and cells[5] != "-":
            _, instance, pin, _, _, site, _, cell, src = cells
            shown = f"{instance}/{pin} ({' '.join([cell, src]).strip()})" if instance else \
                f"port {pin}"
            self.sites.setdefault(site, []).append(shown)

    def of(self, line, kind, name):
        """Returns where a fault's line is, or None."""
        if line in self.sites:
            return ", ".join(self.sites[line])
        if kind == "out" and name.isdigit() and int(name) <= len(self.outputs):
            name = self.outputs[int(name) - 1]
        if name not in self.lines:
            return None
        block, src, of = self.lines[name]
        where = [f"block {block}"] if block != "-" else ["top"]
        where += [src] if src != "-" else []
        where += [f"feeds {of}"] if of not in ("own", "-") else []
        return ", ".join(where)
