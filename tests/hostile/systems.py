"""Systems made at random, most of which keep all rules: units that count, mix what they are given, divide by what may be 0, limit
and shorten steps, repeat, and have event ports; with random connections, resolutions and budgets."""

TYPES = ("Int8", "UInt16", "Int64", "Int64", "Bool", "Fixed 2", "Fixed 4")
ZEROS = {"Bool": "false", "Fixed 2": "0.00", "Fixed 4": "0.0000"}
COMPARISONS = ("==", "!=", "<", "<=", ">", ">=")


def kind_of(ty):
    return ty if ty in ZEROS else "Int"


class Expressions:
    """Makes expressions over some names, each with its type."""

    def __init__(self, random, names, clocks=()):
        self.random = random
        self.names = names
        self.clocks = clocks

    def named(self, kind):
        return [name for name, ty in self.names if kind_of(ty) == kind]

    def leaf(self, kind):
        names = self.named(kind) + (list(self.clocks) if kind == "Int" else [])
        if names and self.random.random() < 0.7:
            return self.random.choice(names)
        return self.literal(kind)

    def literal(self, kind):
        if kind == "Bool":
            return self.random.choice(("true", "false"))
        whole = self.random.choice((0, 1, 2, 3, 7, 20, self.random.randrange(100)))
        if self.random.random() < 0.02:
            whole = self.random.choice((2**31, 2**63 - 1))
        if kind == "Int":
            return str(whole)
        decimals = int(kind.split()[1])
        return f"{whole % 10**9}.{self.random.randrange(10**decimals):0{decimals}}"

    def made(self, kind, depth):
        if depth == 0 or self.random.random() < 0.2:
            return self.leaf(kind)
        if self.random.random() < 0.1:
            return f"(if {self.made('Bool', depth - 1)} then {self.made(kind, depth - 1)} else {self.made(kind, depth - 1)})"
        return self.truth(depth) if kind == "Bool" else self.number(kind, depth)

    def truth(self, depth):
        form = self.random.randrange(3)
        if form == 0:
            return f"not ({self.made('Bool', depth - 1)})"
        if form == 1:
            return f"(({self.made('Bool', depth - 1)}) {self.random.choice(('and', 'or'))} ({self.made('Bool', depth - 1)}))"
        kind = self.random.choice(("Int", "Fixed 2"))
        return f"(({self.made(kind, depth - 1)}) {self.random.choice(COMPARISONS)} ({self.made(kind, depth - 1)}))"

    def number(self, kind, depth):
        one, other, third = (self.made(kind, depth - 1) for _ in range(3))
        form = self.random.randrange(6)
        if form == 0:
            return f"{self.random.choice(('min', 'max'))}({one}, {other})"
        if form == 1:
            return f"clamp({one}, {other}, {third})"
        if form == 2:
            return f"abs({one})" if self.random.random() < 0.5 else f"-({one})"
        if form == 3 and kind == "Int":
            return f"int({self.made(self.random.choice(('Bool', 'Fixed 2')), depth - 1)})"
        if form == 3:
            return f"fix {kind.split()[1]} ({self.made('Int', depth - 1)})"
        operator = self.random.choice(("+", "-", "*", "div", "mod") if kind == "Int" else ("+", "-", "*", "/"))
        if operator in ("div", "mod", "/") and self.random.random() < 0.9:
            other = {"Int": "7", "Fixed 2": "3.50", "Fixed 4": "0.2500"}[kind]
        return f"({one} {operator} {other})"


class Maker:
    """Makes one system."""

    def __init__(self, random):
        self.random = random
        self.version = random.choice((1, 2))
        self.units = []

    def some(self, prefix, most, least=0):
        """Names with their types."""
        return [(f"{prefix}{number}", self.random.choice(TYPES)) for number in range(self.random.randint(least, most))]

    def start(self, ty):
        """A start word, or a setting; those of integers are small enough for each type."""
        if self.random.random() < 0.4:
            return ZEROS.get(ty, "0")
        return str(self.random.randrange(100)) if kind_of(ty) == "Int" else Expressions(self.random, []).literal(ty)

    def unit(self, name):
        random = self.random
        params, states, inputs = self.some("p", 2), self.some("s", 3, 1), self.some("u", 3)
        locals_, outputs = self.some("l", 1), self.some("y", 3, 1)
        events = [f"e{number}" for number in range(random.randint(0, 2))] if self.version == 2 else []
        sent = [f"f{number}" for number in range(random.randint(0, 2))] if self.version == 2 else []
        lines = [f"unit {name}"]
        lines += [f"resolution {random.choice((0, 1, 2, 3))}"] if random.random() < 0.3 else []
        lines += [f"param {p} : {ty} = {self.start(ty)}" for p, ty in params]
        lines += [f"state {s} : {ty} = {self.start(ty)}" for s, ty in states]
        lines += [f"input {u} : {ty} = {self.start(ty)}" for u, ty in inputs]
        lines += [f"event input {e} : Int64" for e in events]
        lines += [self.output(y, ty, params + states, inputs) for y, ty in outputs]
        lines += [self.event_output(f, params + states) for f in sent]
        lines += [f"local {name} : {ty}" for name, ty in locals_]
        counts = [s for s, ty in states if kind_of(ty) == "Int"]
        if random.random() < 0.3:
            lines.append(f"max {random.choice(['1', '2', *counts, *(f'abs({s}) + 1' for s in counts)])}")
        read = params + states + inputs + locals_ + [(e, "Int64") for e in events]
        lines += self.step(read, states + locals_, events, counts)
        self.units.append((name, params, inputs, events, outputs, sent))
        return [*lines, "end"]

    def output(self, name, ty, names, inputs):
        needs = [pair for pair in inputs if self.random.random() < 0.4]
        value = Expressions(self.random, names + needs).made(kind_of(ty), 3)
        listed = f" needs {', '.join(u for u, _ in needs)}" if needs else ""
        return f"output {name} : {ty}{listed} = {value}"

    def event_output(self, name, names):
        made = Expressions(self.random, names)
        return f"event output {name} : Int64 = if {made.made('Bool', 2)} then {made.made('Int', 2)} else absent"

    def step(self, names, targets, events, counts):
        if self.random.random() < 0.1:
            return []
        made = Expressions(self.random, names, ("t", "h"))
        lines = ["step", *self.lines(made, targets, events, 2)]
        if counts and self.random.random() < 0.5:
            lines += self.heavy_lines(counts)
        if self.random.random() < 0.3:
            lines.append(f"accept {self.random.choice(['h', 'min(h, 1)', 'min(h, 2)', 'h - 1', '0', *counts])}")
        return [*lines, "end"]

    def heavy_lines(self, counts):
        """Lines that cost enough for workers to be of use."""
        count = self.random.choice(counts)
        turn = f"{count} := ({count} * 5 + {self.random.randrange(97)}) mod 97"
        return [f"repeat {self.random.randint(10, 100)}", "repeat 100", turn, "end", "end"]

    def lines(self, made, targets, events, depth):
        lines = []
        for _ in range(self.random.randint(1, 3)):
            form = self.random.randrange(5)
            if form == 0 and depth:
                cond = f"present({self.random.choice(events)})" if events else made.made("Bool", 2)
                lines += [f"if {cond}", *self.lines(made, targets, events, depth - 1)]
                lines += ["else", *self.lines(made, targets, events, depth - 1)] if self.random.random() < 0.3 else []
                lines.append("end")
            elif form == 1 and depth:
                lines += [f"repeat {self.random.randint(0, 5)}", *self.lines(made, targets, events, depth - 1), "end"]
            else:
                target, ty = self.random.choice(targets)
                value = made.made(kind_of(ty), 3)
                lines.append(f"{target} := ({value}) mod 97" if kind_of(ty) == "Int" else f"{target} := {value}")
        return lines

    def instances(self):
        made = [(f"i{number}", *self.random.choice(self.units)) for number in range(self.random.randint(1, 5))]
        lines = []
        for name, unit, params, *_ in made:
            lines += [f"instance {name} : {unit}"]
            lines += [f"{p} = {self.start(ty)}" for p, ty in params if self.random.random() < 0.4]
            lines += ["end"]
        return made, lines

    def connections(self, made):
        outputs = [(f"{name}.{y}", ty) for name, _, _, _, _, ys, _ in made for y, ty in ys]
        sent = [f"{name}.{f}" for name, _, _, _, _, _, fs in made for f in fs]
        lines = []
        for name, _, _, inputs, events, _, _ in made:
            for u, ty in inputs:
                fitting = [port for port, other in outputs if other == ty]
                if fitting and self.random.random() < 0.7:
                    lines.append(f"connect {self.random.choice(fitting)} -> {name}.{u}")
            lines += [f"connect {self.random.choice(sent)} -> {name}.{e}" for e in events if sent and self.random.random() < 0.7]
        return lines

    def system(self):
        random = self.random
        lines = [f"cosim {self.version}"]
        for number in range(random.randint(1, 3)):
            lines += self.unit(f"U{number}")
        made, instances = self.instances()
        lines += instances + self.connections(made)
        lines += [f"stop {random.choice((0, 1, 3, 10, 30))}"]
        lines += [f"longest {random.choice((1, 2, 5))}"] if random.random() < 0.8 else []
        lines += [f"zero {random.choice((0, 1, 3, 20))}"] if random.random() < 0.3 else []
        lines += [f"rows {random.choice((1, 2, 10, 60))}"]
        return "".join(line + "\n" for line in lines).encode()


def system_of(random):
    return Maker(random).system()
