#!/usr/bin/env python3
"""Makes a netlist, as `mixed .. netlist` reads it, of a deck as simulators take it. It is outside what is proved.

Usage: tools/deck_to_netlist.py [--at-rest] [DECK]    (no DECK: standard input; the netlist goes to standard output)

What becomes what:
  title, comments, `+` lines, `.control` blocks    the title and the comments go, lines are joined, the blocks go
  upper case, `gnd`                                lower case, 0
  names that a netlist does not allow              spelled in letters that it does, one to one: `_x` and two digits for each other byte
  `.include`, `.subckt`, `X`, `.global`            the file, and each instance written out, with its devices named `r.x1.r1`
  D; Q; M; J, Z; N                                 small-signal devices: R; R, G, C; G, R, C; G, R, C; as Q or M by its model
  K, T, O, Y, P; U                                 coils and lines that act on one another: R or L with an H each; R and C
  V with `portnum`                                 a source with a resistance, as a port is
  S, W                                             R
  E, G, F, H with POLY, VALUE or TABLE; B          a controlled source for each voltage or current that the expression names
  other directives and devices                     left out, with a note on standard error, which ends with a count

`--at-rest`: a capacitor is a current source of 0, a coil a voltage source of 0, and a line a pair of wires, as simulators see them when
they look for the operating point, where most of them say 'singular matrix'. Without it the circuit is at one general frequency.

Limits: a device that is left out changes the answer; conditions (`.if`) are not followed, all their lines are taken; a model card that is
a subcircuit elsewhere is not looked for; a Q line with a substrate is told by the models of the deck. Each device that is not linear is
taken at a point where all its small-signal values are there. Status 2 says that DECK cannot be read.
"""
import pathlib
import re
import sys

CONTROL = re.compile(r"\b([vi])\(\s*([^\s,()]+)\s*(?:,\s*([^\s,()]+)\s*)?\)")


class Names:
    """Spells names in the letters of a netlist, at most 64 of them, no two alike."""

    def __init__(self):
        self.spelled, self.used = {}, set()

    def __call__(self, name):
        if name not in self.spelled:
            text = re.sub(r"_x|[^a-z0-9_.]", lambda it: "".join(f"_x{byte:02x}" for byte in it.group()[:1].encode()) + it.group()[1:], name)
            short = text if len(text) <= 64 else f"{text[:48]}_n{len(self.spelled)}"
            while short in self.used:
                short = f"{short[:56]}_m{len(self.used)}"
            self.used.add(short)
            self.spelled[name] = short
        return self.spelled[name]


class Deck:
    """The lines of a deck, each with its number and in words of lower case, its subcircuits, models and global nodes."""

    def __init__(self, text, folder):
        self.folder, self.notes, self.subcircuits, self.models, self.shared = folder, [], {}, {}, {"0"}
        self.top = self.parted(self.joined(text, is_deck=True))

    def note(self, number, why):
        self.notes.append(f"line {number}: {why}")

    def joined(self, text, is_deck):
        lines, is_control = [], False
        for number, line in enumerate(text.lstrip("\ufeff").splitlines(), 1):
            line = re.sub(r"\s*(;|\$\s|//).*", "", line).strip().lower()
            if is_deck and number == 1 or not line or line.startswith(("*", "$", "#")):
                continue
            if line.startswith((".control", ".endc")):
                is_control = line.startswith(".control")
            elif is_control:
                continue
            elif line.startswith("+") and lines:
                lines[-1] = (lines[-1][0], lines[-1][1] + " " + line[1:])
            elif re.match(r"\.inc(lude)?\b", line):
                lines += self.included(number, text.splitlines()[number - 1])
            elif re.match(r"\.end\s*$", line):
                break
            else:
                lines.append((number, line))
        return lines

    def included(self, number, line):
        name = line.split(None, 1)[-1].strip().strip("\"'")
        path = pathlib.Path(self.folder, name)
        if not path.is_file():
            self.note(number, f"no file {name} to include")
            return []
        return self.joined(path.read_text(encoding="latin-1"), is_deck=False)

    def parted(self, lines):
        """The lines outside subcircuits; each subcircuit is kept with its ports and its lines."""
        stack, top = [], []
        for number, line in lines:
            words = line.split()
            if words[0] == ".subckt" and len(words) > 1:
                ports = [it for it in words[2:] if "=" not in it and it != "params:"]
                stack.append((words[1], (ports, [])))
            elif words[0] == ".ends" and stack:
                name, subcircuit = stack.pop()
                self.subcircuits[name] = subcircuit
            else:
                if words[0] == ".model" and len(words) > 1:
                    self.models[words[1]] = "".join(words[2:3])
                if words[0] == ".global":
                    self.shared.update(words[1:])
                (stack[-1][1][1] if stack else top).append((number, line))
        return top


class Netlist:
    """The lines of the netlist of a deck."""

    def __init__(self, deck, at_rest):
        self.deck, self.at_rest, self.lines, self.names, self.left_out = deck, at_rest, [], Names(), 0
        self.devices = Names()
        self.instance(deck.top, {}, "", 0)

    def instance(self, lines, ports, path, depth):
        """Writes out the lines, where ports have other names; names of the path stand before all others."""
        scope = Scope(self, ports, path, lines)
        for number, line in lines:
            words = [it for it in re.split(r"[\s(),]+", line) if it]
            if not words or words[0].startswith("."):
                self.directive(number, words)
            elif words[0][0] == "x":
                self.subcircuit(number, words, scope, depth)
            elif not scope.device(line, words):
                self.left_out += 1
                self.deck.note(number, f"{words[0]} is left out")

    def directive(self, number, words):
        if words and words[0] not in (".model", ".global", ".param", ".params", ".func"):
            self.deck.note(number, f"{words[0]} is passed over")

    def subcircuit(self, number, words, scope, depth):
        words = [it for it in words if "=" not in it and it != "params:"]
        name = next((it for it in reversed(words[1:]) if it in self.deck.subcircuits), None)
        if name is None or depth > 30:
            self.left_out += 1
            self.deck.note(number, f"{words[0]} is left out: no subcircuit {words[-1]}")
            return
        ports, lines = self.deck.subcircuits[name]
        given = [scope.node(it) for it in words[1 : words.index(name)]]
        self.instance(lines, dict(zip(ports, given)), scope.path + words[0] + ".", depth + 1)

    def put(self, kind, name, *words):
        spelled = self.devices(f"{kind}.{name}" if "." in name or name[0] != kind else name)
        self.lines.append(" ".join([spelled, *words]))
        return spelled


class Scope:
    """The devices of one instance."""

    def __init__(self, netlist, ports, path, lines):
        self.netlist, self.ports, self.path, self.at_rest = netlist, ports, path, netlist.at_rest
        self.coupled, self.inner = {}, 0
        for _, line in lines:
            words = line.split()
            if words[0][0] == "k" and not self.at_rest:
                coils = [it for it in words[1:] if it[0] == "l"]
                for coil in coils:
                    self.coupled.setdefault(coil, []).extend(it for it in coils if it != coil)

    def node(self, word):
        if word in ("gnd", "gnd!"):
            word = "0"
        if word in self.ports:
            return self.ports[word]
        return self.netlist.names(word if word in self.netlist.deck.shared else self.path + word)

    def between(self):
        self.inner += 1
        return self.netlist.names(f"{self.path}between.{self.inner}")

    def put(self, kind, name, *nodes):
        return self.netlist.put(kind, self.path + name, *nodes)

    def sensor(self, name):
        """The V device whose current is that of this device."""
        return self.netlist.devices(f"v.{self.path}{name}" if "." in self.path + name or name[0] != "v" else name)

    def device(self, line, words):
        """Whether the device of this line is written."""
        kind, name = words[0][0], words[0]
        wanted = {"r": 2, "l": 2, "c": 2, "v": 2, "i": 2, "d": 2, "s": 2, "w": 2, "b": 2, "e": 2, "g": 2, "f": 2, "h": 2, "q": 3, "j": 3,
                  "z": 3, "u": 3, "m": 4, "t": 4, "o": 4, "y": 4, "k": 2, "n": 4, "p": 4}
        if kind not in wanted or len(words) <= wanted[kind]:
            return False
        nodes = [self.node(it) for it in words[1 : wanted[kind] + 1]] if kind != "k" else []
        write = {"l": self.coil, "c": self.capacitor, "q": self.bipolar, "m": self.transistor, "j": self.junction, "z": self.junction,
                 "t": self.transmission, "o": self.transmission, "y": self.transmission, "u": self.spread, "n": self.compact,
                 "p": self.bundle}
        if kind == "v" and re.search(r"\bportnum\b", line):
            self.port(name, nodes)
        elif kind in "rvi":
            self.put(kind, name, *nodes)
        elif kind in "dsw":
            self.put("r", name, *nodes)
        elif kind in "efghb":
            return self.source(kind, name, nodes, line, words)
        elif kind in write:
            write[kind](name, nodes, words)
        return True

    # A coil; one that others act on is in series with a sensor and a voltage for each of them.
    def coil(self, name, nodes, words):
        if self.at_rest or name not in self.coupled:
            self.put("v" if self.at_rest else "l", name, *nodes)
            return
        self.series("l", name, nodes, [("h", self.sensor(f"{it}.turns")) for it in self.coupled[name]])

    # A device, a sensor, and voltages by currents of other sensors, one after another.
    def series(self, kind, name, nodes, voltages):
        at, last = nodes
        for k, (letter, by) in enumerate(voltages):
            after = self.between()
            self.put(letter, f"{name}.by.{k}", at, after, by)
            at = after
        after = self.between()
        self.put("v", f"{name}.turns", at, after)
        self.put(kind, name, after, last)

    def port(self, name, nodes):
        inner = self.between()
        self.put("v", name, nodes[0], inner)
        self.put("r", f"{name}.port", inner, nodes[1])

    def capacitor(self, name, nodes, words):
        self.put("i" if self.at_rest else "c", name, *nodes)

    def charge(self, name, *pairs):
        if not self.at_rest:
            for k, pair in enumerate(pairs):
                self.put("c", f"{name}.charge.{k}", *pair)

    def bipolar(self, name, nodes, words):
        c, b, e = nodes
        self.put("r", f"{name}.base", b, e)
        self.put("g", f"{name}.gain", c, e, b, e)
        self.put("r", f"{name}.out", c, e)
        self.charge(name, (b, e), (b, c))

    def transistor(self, name, nodes, words):
        d, g, s, b = nodes
        self.put("g", f"{name}.gain", d, s, g, s)
        self.put("r", f"{name}.out", d, s)
        if words[4] not in self.netlist.deck.models:
            self.put("g", f"{name}.bulk", d, s, b, s)
            self.put("r", f"{name}.well.0", b, d)
            self.put("r", f"{name}.well.1", b, s)
            self.charge(name, (g, b))
        self.charge(f"{name}.gate", (g, s), (g, d))

    # A compact model that is read when the simulator runs: its model card tells what it is.
    def compact(self, name, nodes, words):
        models = self.netlist.deck.models
        kind = next((models[it] for it in words[4:] if it in models), "")
        write = self.bipolar if re.search(r"bjt|hic|npn|pnp|vbic", kind) else self.transistor
        write(name, nodes[: 3 if write == self.bipolar else 4], words)

    def junction(self, name, nodes, words):
        d, g, s = nodes
        self.put("g", f"{name}.gain", d, s, g, s)
        self.put("r", f"{name}.out", d, s)
        self.put("r", f"{name}.gate.0", g, s)
        self.put("r", f"{name}.gate.1", g, d)

    # A line of two ports: at rest two wires, else a resistance at each port and a voltage by the current of the other.
    def transmission(self, name, nodes, words):
        a, b, c, d = nodes
        if self.at_rest:
            self.netlist.lines.append(" ".join([".transformer", self.netlist.devices(f"t.{self.path}{name}"), a, b, c, d, "1"]))
            return
        self.series("r", f"{name}.near", (a, b), [("h", self.sensor(f"{name}.far.turns"))])
        self.series("r", f"{name}.far", (c, d), [("h", self.sensor(f"{name}.near.turns"))])

    # Lines side by side: each as one of its own.
    def bundle(self, name, nodes, words):
        ends = [self.node(it) for it in words[1:-1] if "=" not in it]
        near, far = ends[: len(ends) // 2], ends[len(ends) // 2 :]
        for k, (one, other) in enumerate(zip(near[:-1], far[:-1])):
            self.transmission(f"{name}.line.{k}", (one, near[-1], other, far[-1]), words)

    def spread(self, name, nodes, words):
        a, b, ground = nodes
        self.put("r", name, a, b)
        self.charge(name, (a, ground), (b, ground))

    # A source that is controlled by what the words or the expression name: voltages in series, currents side by side.
    def source(self, kind, name, nodes, line, words):
        controls = self.controls(kind, line, words)
        if controls is None:
            return False
        is_voltage = kind in "eh" or kind == "b" and re.search(r"\bv\s*=", line)
        if not controls:
            self.put("v" if is_voltage else "i", name, *nodes)
            return True
        at, last = nodes
        for k, control in enumerate(controls):
            letter = ("e" if is_voltage else "g") if len(control) == 2 else ("h" if is_voltage else "f")
            own = name if len(controls) == 1 and kind == letter else f"{name}.by.{k}"
            after = last if not is_voltage or k + 1 == len(controls) else self.between()
            self.put(letter, own, at, after, *control)
            at = after if is_voltage else at
        return True

    # Each control is a pair of nodes, or a sensor.
    def controls(self, kind, line, words):
        rest = words[3:]
        if kind == "b" or re.search(r"=|\b(value|table|laplace|freq|cur|vol)\b", line) and (not rest or not rest[0].startswith("poly")):
            found = []
            for letter, one, other in CONTROL.findall(line):
                control = (self.sensor(one),) if letter == "i" else (self.node(one), self.node(other or "0"))
                if control not in found:
                    found.append(control)
            return found if kind == "b" or found or "=" in line else None
        count = 1
        if rest and rest[0].startswith("poly"):
            count = int(rest[1]) if len(rest) > 1 and rest[1].isdigit() else 1
            rest = rest[2:]
        if kind in "fh":
            return [(self.sensor(it),) for it in rest[:count]] if len(rest) >= count else None
        if len(rest) < 2 * count:
            return None
        return [(self.node(rest[2 * k]), self.node(rest[2 * k + 1])) for k in range(count)]


def main():
    words = [it for it in sys.argv[1:] if it != "--at-rest"]
    try:
        text = pathlib.Path(words[0]).read_bytes() if words else sys.stdin.buffer.read()
    except OSError as fault:
        print(f"deck_to_netlist: {fault}", file=sys.stderr)
        return 2
    deck = Deck(text.decode("latin-1"), pathlib.Path(words[0]).parent if words else ".")
    netlist = Netlist(deck, "--at-rest" in sys.argv)
    print("\n".join(netlist.lines))
    for note in deck.notes:
        print(f"deck_to_netlist: {note}", file=sys.stderr)
    print(f"deck_to_netlist: {len(netlist.lines)} devices, {netlist.left_out} left out", file=sys.stderr)
    return 0


sys.exit(main())
