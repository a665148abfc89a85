"""Texts at the ends of what the language allows: as deep as there may be, and of nearly 1 MiB in many shapes."""
import itertools
import random
import string

LONGEST = 1_048_576
LONGEST_TABLE = 64 * LONGEST
# A text that is filled leaves room for the line `main` before it.
FILLED = LONGEST - len("main\n")
LONGEST_LINE = 1_000
# The most inputs of components that flattening keeps of an input of a group, and the most connections that can lead to more.
KEPT = 128
MORE = 2_048 // (KEPT + 1)
IN_NAMES = string.ascii_letters + string.digits + "_"

COUNTER = """cosim 1
unit Counter
  state n : Int64 = 0
  output y : Int64 = n
  step
{}
  end
end
instance a : Counter
end
stop 3
longest 1
"""


def nested(front, back, depth, middle="n"):
    return f"{front * depth}{middle}{back * depth}"


def deep_texts():
    """Texts whose expressions and blocks are as deep as may be, or deeper, each with its name."""
    lines = {
        "as many parentheses": f"n := {nested('(', ')', 64)} + 1",
        "one more of parentheses": f"n := {nested('(', ')', 65)} + 1",
        "as many signs": f"n := {'- ' * 31}n",
        "a line full of signs": f"n := {'- ' * 480}n",
        "as many choices": f"n := {nested('if true then ', ' else n', 31)}",
        "as many calls": f"n := {nested('clamp(', ', 0, 9)', 31)}",
        "a sum as long as a line": "n := n" + "+n" * 490,
        "a sum of 32": "n := n" + "+n" * 31,
        "a chain of not": f"if {'not ' * 240}true\nend",
        "as many blocks": nested("if true\n", "\nend", 16, "n := n + 1"),
        "one more of blocks": nested("if true\n", "\nend", 17, "n := n + 1"),
        "as many loops": nested("repeat 1\n", "\nend", 16, "n := n + 1"),
        "parentheses up to the end of the line": f"n := {'(' * 900}",
        "choices up to the end of the line": f"n := {'if true then ' * 70}",
    }
    return [(name, COUNTER.format(line).encode()) for name, line in lines.items()]


def filled(head, line, tail="", longest=FILLED):
    """A text of so many lines that it is nearly as long as may be; each line by its number."""
    parts, size = [head], len(head) + len(tail)
    for number in range(longest):
        part = line(number)
        size += len(part)
        if size > longest:
            break
        parts.append(part)
    return "".join([*parts, tail]).encode()


def name_of(number, width=0):
    """A name for a number, in letters."""
    letters = ""
    while number or not letters:
        number, letter = divmod(number, 26)
        letters = chr(ord("a") + letter) + letters
    return "N" + "_" * max(0, width - 1 - len(letters)) + letters


def short_name(number):
    """A name of three characters for a number. Words of the language begin with small letters."""
    number, last = divmod(number, len(IN_NAMES))
    first, middle = divmod(number, len(IN_NAMES))
    return string.ascii_uppercase[first] + IN_NAMES[middle] + IN_NAMES[last]


def in_lines(first, part, rest, longest=LONGEST_LINE - 40):
    """A line that begins with a part and goes on with so many others that it is nearly as long as may be."""
    line, number = first + part(0), 1
    while len(line) + len(rest) + len(part(number)) < longest:
        line += part(number)
        number += 1
    return line + rest


def long_texts():
    """Texts of nearly 1 MiB, each with its name."""
    unit, end = "cosim 1\nunit u\n", "end\ninstance i:u\nend\nstop 0\n"
    needs = in_lines("", lambda number: f",{name_of(number)}" if number else name_of(0), "", 320)
    uses = "+".join([name_of(0)] * 200)
    inputs = "".join(f"input {name_of(number)}:Int8=0\n" for number in range(130))
    both = "instance a:u\nend\ninstance b:u\nend\nstop 0\n"
    ports = unit + "input u:Int8=0\noutput y:Int8=0\nend\n" + both
    return [
        ("locals", filled(unit, lambda number: f"local {name_of(number)}:Bool\n", end)),
        ("locals with names of 32 bytes that differ at the end", filled(unit, lambda n: f"local {name_of(n, 32)}:Bool\n", end)),
        ("states that are added", filled(unit, lambda n: f"state {name_of(n)}:Int8=0\n", f"step\n{name_of(0)}:={name_of(1)}\nend\n{end}")),
        ("outputs", filled(unit, lambda number: f"output {name_of(number)}:Int8=0\n", end)),
        ("event outputs", filled("cosim 2\nunit u\n", lambda n: f"event output {name_of(n)}:Int8=absent\n", end)),
        ("outputs with many needs", filled(unit + inputs, lambda n: f"output {name_of(n, 9)}:Int8 needs {needs}={uses}\n", end)),
        ("parameters and settings", settings(unit)),
        ("units", filled("cosim 1\n", lambda number: f"unit {name_of(number)}\nend\n", "stop 0\n")),
        ("units of one name", filled("cosim 1\n", lambda number: "unit u\nend\n", "stop 0\n")),
        ("instances", filled(unit + "end\n", lambda number: f"instance {name_of(number)}:u\nend\n", "stop 0\n")),
        ("instances of no unit", filled("cosim 1\n", lambda number: f"instance {name_of(number)}:u\nend\n", "stop 0\n")),
        ("connections", filled(ports, lambda number: "connect a.y->b.u\n")),
        ("connections of many ports", filled(ports, lambda n: f"connect a.{name_of(n)}->b.{name_of(n)}\n")),
        ("samples", filled(ports, lambda number: f"sample a.{name_of(number)}\n")),
        ("inputs that are connected", connected(unit)),
        ("assignments", filled(f"{unit}state n:Int8=0\nstep\n", lambda number: "n:=n\n", f"end\n{end}")),
        ("assignments with long sums", filled(f"{unit}state n:Int8=0\nstep\n", lambda number: f"n:=n{'+n' * 490}\n", f"end\n{end}")),
        ("sums of products in as many units as there may be", units_with(f"n:=n{'+n*n' * 30}\n")),
        ("deep expressions", filled(f"{unit}state n:Int8=0\nstep\n", lambda n: f"n:={nested('min(n,', ')', 31)}\n", f"end\n{end}")),
        ("blocks", filled(f"{unit}step\n", lambda number: "if true\n" * 14 + "end\n" * 14, f"end\n{end}")),
        ("empty lines", filled("cosim 1\n", lambda number: "\n")),
        ("comments", filled("cosim 1\n", lambda number: "#" * 999 + "\n")),
        ("one byte a line", filled("cosim 1\n", lambda number: "x\n")),
    ]


def units_with(line):
    """A text that is accepted: as many units as there may be instances, each with as many such lines as there is room for."""
    lines = line * ((FILLED - 8_000) // (64 * len(line)))
    names = [name_of(number) for number in range(64)]
    units = "".join(f"unit {name}\nstate n:Int64=0\noutput y:Int64=n\nstep\n{lines}end\nend\n" for name in names)
    return ("cosim 1\n" + units + "".join(f"instance {name}:{name}\nend\n" for name in names) + "stop 0\nlongest 1\n").encode()


def settings(unit):
    """A unit with as many parameters as there is room for, and an instance that sets each."""
    half = filled(unit, lambda number: f"param {name_of(number)}:Int8=0\n", longest=LONGEST * 2 // 3).decode()
    count = half.count("\n") - 2
    lines = "".join(f"{name_of(number)}=0\n" for number in range(count))
    return (half + "end\ninstance i:u\n" + lines + "end\nstop 0\n").encode()[:LONGEST]


def connected(unit):
    """As many inputs as there is room for, each of which is connected."""
    numbers = range(26_000)
    inputs = "".join(f"input {name_of(number)}:Int8=0\n" for number in numbers)
    lines = "".join(f"connect a.y->b.{name_of(number)}\n" for number in numbers)
    text = unit + inputs + "output y:Int8=0\nend\ninstance a:u\nend\ninstance b:u\nend\n" + lines + "stop 0\n"
    assert len(text) <= LONGEST
    return text.encode()


def sum_of_products(longest):
    """An expression of so many characters at most, with as many operations as may be."""
    product = "*".join([f"({'+'.join(['n'] * 13)})"] * 2)
    return "+".join([product] * ((longest + 1) // (len(product) + 1)))


def conditions_of_events():
    """As many event outputs as there may be, whose lines are conditions."""
    line = f"if {sum_of_products(957)}<n then n else absent"
    outputs = "".join(f"event output y{number}:Int8={line}\n" for number in range(16))
    units = "".join(f"unit u{number}\nstate n:Int8=0\n{outputs}end\n" for number in range(64))
    return ("cosim 2\n" + units + "".join(f"instance i{number}:u{number}\nend\n" for number in range(64)) + "stop 0\n").encode()


def codes_of_their_own():
    """As many instances as there may be of one unit, each with a parameter of its own, so that none shares the code of another. The
    step costs nearly as much as it may, and the lines of the outputs are nearly as long as they may be."""
    value = sum_of_products(930)
    outputs = "".join(f"output y{number}:Int64={value}\n" for number in range(32))
    unit = f"cosim 1\nunit u\nparam k:Int64=0\nstate n:Int64=0\n{outputs}step\n{f'n:={value}{chr(10)}' * 115}end\nend\n"
    return (unit + "".join(f"instance i{number}:u\nk={number}\nend\n" for number in range(64)) + "stop 0\n").encode()


def tables_to_verify():
    """Texts with tables of one record, of empty fields or of one field, which are as long as they may be; each with its name."""
    text = COUNTER.format("n := n + 1").encode() + b"trace\n"
    left = LONGEST_TABLE - len(text)
    yield "a record of commas", text + b"," * left
    yield "a field in quotes", text + b'"' + b"x" * (left - 2) + b'"'


def large_answers():
    """Calls that take most memory: their words, name and input, and the address space in MiB in which they are answered."""
    yield ["check"], "conditions of events", conditions_of_events(), 200
    yield ["save", "--row", "0"], "conditions of events", conditions_of_events(), 300
    yield ["run"], "codes of their own", codes_of_their_own(), 520
    for (name, text), room in zip(tables_to_verify(), (1_700, 290)):
        yield ["verify"], name, text, room


NESTED_MAIN = """main
cosim 1
unit A
output y:Int32=1
end
unit D
input u:Int32=0
output p:Int32=2
end
instance a:A
end
stop 3
"""
ONE_GROUP = NESTED_MAIN + "instance g:G\nend\n"


def long_nests():
    """Nested texts of nearly 1 MiB, each with its name."""
    one = "group {}\ninstance d:D\nend\n"
    return [
        ("groups without instances", filled("", lambda n: f"group {name_of(n)}\n", NESTED_MAIN)),
        ("groups of one component", filled("", lambda n: one.format(name_of(n)), NESTED_MAIN)),
        ("a chain of groups", chain_of_groups(one.format(name_of(27_000)))),
        ("a cycle of groups", chain_of_groups(group_around(name_of(27_000), name_of(0)))),
        ("instances in a group, each with a line", filled("group G\n", lambda n: f"instance {name_of(n)}:D\nend\nin x->{name_of(n)}.u\n", ONE_GROUP)),
        ("connections to lines that lead to one input", connections_to(lambda number: "x", lambda n: "in x->d.u\n")),
        ("connections to names that lead to one input", connections_to(name_of, lambda n: f"in {name_of(n)}->d.u\n")),
        ("connections to many ways to one input", connections_to(lambda number: "x", *ways("D"))),
        ("connections to names that lead to many ways", names_with_ways()),
        ("groups in many places, with many ways each", places_with_ways(60)),
        ("many ways to all inputs that there may be", ways_to_inputs(2_000, 1)),
        ("many ways to more inputs than there may be", ways_to_inputs(2_100, 1)),
        ("many ways to many inputs, for some connections", ways_to_inputs(KEPT, 2_048 // KEPT)),
        ("many ways to a few more inputs, for some connections", ways_to_inputs(KEPT + 2, MORE)),
        ("names that lead to all inputs that there may be", names_to_inputs(2_000, 30_000)),
        ("names that lead to as many inputs as are kept", names_to_inputs(KEPT, 30_000)),
        ("names in no order that lead to a few more inputs, for some connections", names_in_no_order(KEPT + 2, 30_000, MORE)),
        ("levels of names in no order that lead to a few more inputs, for some connections", levels_of_names(11, 4_600, KEPT + 2, MORE)),
        ("names that lead to inputs in many places", names_in_places(MORE, KEPT + 2)),
        ("names that lead to more inputs than there may be, in many places", names_in_places(MORE + 2, KEPT + 2)),
        ("two paths to scopes of one name", twin_paths(1_500, 20_000)),
        ("two paths to scopes of one name, with few inputs", twin_paths(100, 20_000)),
        ("paths of two lengths to scopes of one name, in turns", twins_in_turns(KEPT + 2, 15_000)),
        ("instances of one name", twin_instances(60)),
        ("one connection more than there may be, to lines in many places", one_too_many(60, None)),
        ("one connection more than there may be, to names in many places", one_too_many(60, 37_000)),
        ("lines that lead to as many inputs as are kept, of a few more", kept_again(0)),
        ("names that lead to as many inputs as are kept, of a few more", kept_again(36_800)),
        ("names that lead to half of these, in two places", names_kept(KEPT // 2, MORE // 2, 0)),
        ("names that lead to a few more than half, in two places", names_kept(KEPT // 2 + 1, MORE // 2, 0)),
        ("names that lead to half of these, in two places, and then in too many", names_kept(KEPT // 2, MORE // 2, 61)),
        ("names that lead to three inputs, in 61 places", names_kept(3, 5, 61)),
        ("names on many levels that lead to as many inputs as are kept, in as many places", kept_on_levels(12, 1)),
        ("names on many levels that lead by two lines to as many inputs as are kept, in as many places", kept_on_levels(12, 2)),
        ("a tree of names that lead to three inputs, in 61 places", trees_of_names(3, 61, 12, 11)),
        ("a tree of names that lead to three inputs, in 43 places", trees_of_names(3, 43, 13, MORE)),
        ("a tree of names that lead to half as many inputs as are kept, in two places", trees_of_names(KEPT // 2 + 1, 2, 12, MORE)),
        ("chains of names that lead to three inputs, in 43 places", chains_of_names(3, 43, 13, MORE)),
        ("chains of names that lead to a quarter as many inputs as are kept, in four places", chains_of_names(KEPT // 4 + 1, 4, 13, MORE)),
        ("chains of names that lead to as many inputs as are kept, in two places", chains_of_names(KEPT, 2, 13, MORE // 2)),
        ("names that lead by two lines to as many inputs as are kept, of a few more", names_by_two_lines(MORE, 0)),
        ("names that lead by two lines to as many inputs as are kept, of a few more, and then in too many places", names_by_two_lines(MORE // 2, 60)),
        ("names that lead to as many inputs as are kept, of twins in seven places", twin_places(7, 8, 1)),
        ("names that lead by two lines to as many inputs as are kept, of twins in seven places", twin_places(7, 8, 2)),
        ("names on levels that lead in no order to as many inputs as are kept, of twins in seven places", twin_levels(7, 8, 4)),
        ("names that lead by two lines to 39 inputs of twins each, which are added in nine places", few_of_twins(9, 7, 39, 2)),
        ("names that lead by six lines to 71 inputs of twins each, which are added in nine places", few_of_twins(9, 7, 71, 6)),
        ("trees of names that lead by two lines each to 40 inputs of twins, in twelve places", twin_trees(12, 5, 40, 2)),
        ("trees of names that lead by two lines each to 72 inputs of twins, in nine places", twin_trees(9, 7, 72, 2)),
        ("trees of names that lead by five lines each to 40 inputs of twins, in twelve places", twin_trees(12, 5, 40, 5)),
        ("trees of names that lead to all but one of 48 inputs of twins each, in ten places", twin_mixtures(10, 6, 48)),
        ("trees of names that lead to all but one of 72 inputs of twins each, in nine places", twin_mixtures(9, 7, 72)),
        ("trees of names that lead to half of 48 inputs of twins each, in ten places", twin_mixtures(10, 6, 48, 23)),
        ("trees of names that lead by three lines to most of 42 inputs of twins each, in twelve places", twin_mixtures(12, 5, 42, 35, 3)),
        ("trees of names that lead to more inputs of twins each than are kept, in nine places", twin_mixtures(9, 7, KEPT + 5, KEPT + 2)),
        ("names that lead to inputs whose numbers are far apart, in eight places, by many lines", numbers_apart(8, 118, 8_000, 4)),
        ("many names that lead to inputs whose numbers are far apart, in eight places", numbers_apart(8, 118, 15_000, 4)),
        ("names that lead to inputs whose numbers are as far apart as they may be, and to too many", numbers_at_ends()),
        ("names on eight levels that lead to one input, in 14 places of each of three parts", few_inside(3, 14)),
        ("trees of names that lead by two lines each to 16 inputs, in nine places", twin_trees(9, 1, 16, 2)),
        ("lines of a group in as many scopes as there may be", lines_in_scopes()),
        ("outputs that are connected", connected_outputs()),
        ("samples down a chain", samples_down(15)),
        ("samples of many outputs down a chain", outputs_down(15, 35_000)),
        ("samples of many outputs of many groups down chains", outputs_of_places(14, 50)),
        ("samples of names of 60 groups, down levels of names", outputs_on_levels(13, 60)),
        ("samples and connections down a chain that is too deep", samples_down(33)),
    ]


def group_around(name, inner):
    return f"group {name}\ninstance k:{inner}\nend\n"


def chain_of_groups(last):
    """Groups of which each is inside the one before it; and a last one."""
    groups = "".join(group_around(name_of(number), name_of(number + 1)) for number in range(27_000))
    return (groups + last + NESTED_MAIN).encode()


def connections_to(target, line, front="group G\ninstance d:D\nend\n"):
    """As many connections as there may be to inputs of a group, which has lines of its own."""
    wires = "".join(f"connect a.y->g.{target(number)}\n" for number in range(2_048))
    return filled(front, line, ONE_GROUP + wires)


def ways(inner, count=30_000):
    """A line for each of many names of a group `H`, all of which lead to one input, and the groups around them."""
    names = "".join(f"in {name_of(number)}->d.u\n" for number in range(count))
    front = f"group H\ninstance d:{inner}\nend\n{names}group G\ninstance k:H\nend\n"
    return (lambda number: f"in x->k.{name_of(number % count)}\n"), front


def names_with_ways():
    """Connections to as many names, each of which leads by two lines to all of many ways."""
    line, front = ways("D", 20_000)
    lines = "".join(line(number) for number in range(20_000)) + "in z->k." + name_of(0) + "\n"
    names = "".join(f"in {name_of(number)}->k.x\nin {name_of(number)}->k.z\n" for number in range(2_048))
    wires = "".join(f"connect a.y->g.{name_of(number)}\n" for number in range(2_048))
    return (front + lines + "group F\ninstance k:G\nend\n" + names + NESTED_MAIN + "instance g:F\nend\n" + wires).encode()


def places_with_ways(places):
    """Instances of one group with many ways, each of which is connected."""
    line, front = ways("D")
    instances = "".join(f"instance g{number}:G\nend\n" for number in range(places))
    wires = "".join(f"connect a.y->g{number}.x\n" for number in range(places))
    return filled(front, line, NESTED_MAIN + instances + wires)


def ways_to_inputs(inputs, connections):
    """Many ways, each of which leads to many inputs."""
    unit = "unit M\n" + "".join(f"input {name_of(number)}:Int8=0\n" for number in range(inputs)) + "end\n"
    leads = "group J\ninstance d:M\nend\n" + "".join(f"in y->d.{name_of(number)}\n" for number in range(inputs))
    names = "".join(f"in {name_of(number)}->j.y\nin {name_of(number)}->j.z\n" for number in range(16_000))
    front = leads + f"in z->d.{name_of(0)}\ngroup H\ninstance j:J\nend\n{names}group G\ninstance k:H\nend\n"
    tail = NESTED_MAIN.replace("instance a", unit + "instance a") + "instance g:G\nend\n" + "connect a.y->g.x\n" * connections
    return filled(front, lambda number: f"in x->k.{name_of(number % 16_000)}\n", tail)


def unit_with(inputs):
    return "unit M\n" + "".join(f"input {name_of(number)}:Int8=0\n" for number in range(inputs)) + "end\n"


def leads(inputs, port, instance="d"):
    return "".join(f"in {port}->{instance}.{name_of(number)}\n" for number in range(inputs))


def with_unit(unit):
    return NESTED_MAIN.replace("instance a", unit + "instance a")


def names_to_inputs(inputs, names):
    """Many names, each of which leads to all of many inputs by one line, and one that leads to each name."""
    inner = "group J\ninstance d:M\nend\n" + leads(inputs, "y") + "group H\ninstance j:J\nend\n"
    inner += "".join(f"in {name_of(number)}->j.y\n" for number in range(names)) + "group G\ninstance k:H\nend\n"
    tail = with_unit(unit_with(inputs)) + "instance g:G\nend\nconnect a.y->g.x\n"
    return filled(inner, lambda number: f"in x->k.{name_of(number % names)}\n", tail)


def shuffled(count, seed):
    numbers = list(range(count))
    random.Random(seed).shuffle(numbers)
    return numbers


def names_in_no_order(inputs, names, connections):
    """As `names_to_inputs`, but names are in no order, and those that lead to them in another one."""
    inner = "group J\ninstance d:M\nend\n" + leads(inputs, "y") + "group H\ninstance j:J\nend\n"
    inner += "".join(f"in {name_of(number)}->j.y\n" for number in shuffled(names, 1)) + "group G\ninstance k:H\nend\n"
    inner += "".join(f"in x->k.{name_of(number)}\n" for number in shuffled(names, 2))
    return (inner + with_unit(unit_with(inputs)) + "instance g:G\nend\n" + "connect a.y->g.x\n" * connections).encode()


def levels_of_names(depth, names, inputs, connections):
    """Groups in each other, each with many names in no order that lead to those of the one inside, and at the bottom to many inputs."""
    text = "group J\ninstance d:M\nend\n" + leads(inputs, "y") + "group H0\ninstance k:J\nend\n"
    text += "".join(f"in {name_of(number)}->k.y\n" for number in range(names))
    for level in range(1, depth):
        pairs = zip(shuffled(names, level), shuffled(names, level + depth))
        text += f"group H{level}\ninstance k:H{level - 1}\nend\n" + "".join(f"in {name_of(one)}->k.{name_of(other)}\n" for one, other in pairs)
    text += f"group G\ninstance k:H{depth - 1}\nend\n" + "".join(f"in x->k.{name_of(number)}\n" for number in shuffled(names, 0))
    return (text + with_unit(unit_with(inputs)) + "instance g:G\nend\n" + "connect a.y->g.x\n" * connections).encode()


def names_in_places(places, inputs):
    """Instances of a group with many names, each of which leads to many inputs; all are asked for at once."""
    names = 12_000
    inner = "group H\ninstance d:M\nend\n" + leads(inputs, "y") + "group J\ninstance k:H\nend\n"
    inner += "".join(f"in {name_of(number)}->k.y\n" for number in range(names)) + "group G\n"
    inner += "".join(f"instance j{place}:J\nend\n" for place in range(places))
    tail = with_unit(unit_with(inputs)) + "instance g:G\nend\nconnect a.y->g.x\n"
    return filled(inner, lambda number: f"in x->j{number % places}.{name_of(number // places % names)}\n", tail)


def twin_paths(inputs, names):
    """Two ways through groups to scopes of one name, each with many inputs that many names lead to, and connections to some of them."""
    inner = "group C\ninstance d:M\nend\n" + leads(inputs, "x") + leads(1, "z")
    first = "group P\ninstance b_c:C\nend\nin x->b_c.x\nin z->b_c.z\n"
    second = "group Q\ninstance c:C\nend\nin x->c.x\nin z->c.z\n"
    both = "group G\ninstance a:P\nend\ninstance a_b:Q\nend\nin x->a.x\nin x->a_b.x\nin z->a.z\nin z->a_b.z\n"
    outer = "group F\ninstance g:G\nend\n" + "".join(f"in {name_of(number)}->g.z\n" for number in range(names))
    outer += "in x->g.x\ngroup E\ninstance f:F\nend\nin x->f.x\n"
    connections = 2_048 // inputs
    wires = "connect a.y->e.x\n" * connections + "connect a.y->e.w\n" * (2_048 - connections * inputs)
    tail = with_unit(unit_with(inputs)) + "instance e:E\nend\n" + wires
    return filled(inner + first + second + both + outer, lambda number: f"in w->f.{name_of(number % names)}\n", tail)


def twins_in_turns(inputs, names):
    """Two ways of unequal length to scopes of one name, each led to in turn, by one of many names and without one."""
    inner = "group C\ninstance d:M\nend\n" + leads(inputs, "x") + "group P\ninstance b:C\nend\n"
    inner += "".join(f"in {name_of(number)}->b.x\n" for number in range(names))
    inner += "group G\ninstance a:P\nend\ninstance a_b:C\nend\n"
    turns = "".join(f"in x->a.{name_of(number)}\nin x->a_b.x\n" for number in range(names))
    tail = with_unit(unit_with(inputs)) + "instance g:G\nend\n" + "connect a.y->g.x\n" * (2_048 // inputs)
    return (inner + turns + tail).encode()


def twin_instances(count):
    """Instances of one name, so that scopes inside them are the same, with many names that lead to a few inputs."""
    names = 15_000
    inner = "group C\ninstance d:M\nend\n" + leads(3, "x") + "group B\n" + "instance c:C\nend\n" * count
    inner += "".join(f"in {name_of(number)}->c.x\n" for number in range(names)) + "group G\ninstance b:B\nend\n"
    tail = with_unit(unit_with(3)) + "instance g:G\nend\n" + "connect a.y->g.x\n" * 682
    return filled(inner, lambda number: f"in x->b.{name_of(number % names)}\n", tail)


def one_too_many(places, names):
    """As many connections as there may be, and one to an input that leads to lines, or to many names, in each of many places."""
    inner = "group J\ninstance d:D\nend\nin x->d.u\n"
    if names:
        inner += "".join(f"in {name_of(number)}->d.u\n" for number in range(names))
    inner += "group H\ninstance k:J\nend\n"
    outer = "group G\n" + "".join(f"instance h{place}:H\nend\nin x->h{place}.x\n" for place in range(places))
    wires = "connect a.y->b.u\n" * 2_048 + "connect a.y->g.x\n"
    tail = outer + ONE_GROUP + "instance b:D\nend\n" + wires
    return filled(inner, lambda number: f"in x->k.{name_of(number % names) if names else 'x'}\n", tail)


def kept_again(names):
    """Lines of an input, or many names that each have one, that lead to as many inputs as are kept, of one more that the input leads to."""
    inner = "group J\ninstance d:M\nend\n" + leads(KEPT, "y") + "".join(f"in w->d.{name_of(number)}\n" for number in shuffled(KEPT, 3))
    inner += f"in z->d.{name_of(KEPT)}\ngroup H\ninstance k:J\nend\nin y->k.y\nin w->k.w\nin z->k.z\n"
    inner += "".join(f"in {name_of(number)}->k.w\n" for number in range(names)) + "group G\ninstance j:H\nend\nin x->j.y\n"
    tail = "in x->j.z\n" + with_unit(unit_with(KEPT + 1)) + "instance g:G\nend\n" + "connect a.y->g.x\n" * MORE
    return filled(inner, lambda number: f"in x->j.{name_of(number % names) if names else 'w'}\n", tail)


def names_kept(inputs, connections, places):
    """Many names that lead to so many inputs, and one input that leads to each name and to a few inputs more: it is connected in two places,
    and then, where there are some, in many at once."""
    inner = "group C\ninstance d:M\nend\n" + leads(inputs, "y") + f"in v->d.{name_of(inputs)}\n"
    inner += "".join(f"in w->d.{name_of(number)}\n" for number in shuffled(inputs, 3))
    inner += "group H\ninstance k:C\nend\nin y->k.y\nin v->k.v\n"
    middle = "group J\ninstance k:H\nend\nin z->k.y\nin z->k.v\n"
    outer = "group G\ninstance a:J\nend\ninstance b:J\nend\n"
    outer += "".join(f"in {name_of(number)}->a.z\nin {name_of(number)}->b.z\n" for number in range(connections))
    wires = "".join(f"connect a.y->g.{name_of(number)}\n" for number in range(connections))
    instances = "instance g:G\nend\n"
    if places:
        outer += "group F\n" + "".join(f"instance j{place}:J\nend\nin x->j{place}.z\n" for place in range(places))
        instances += "instance f:F\nend\n"
        wires += "connect a.y->f.x\n" * (2_048 // (places * (inputs + 1)) + 1)
    tail = outer + with_unit(unit_with(inputs + 1)) + instances + wires
    names = (LONGEST - len(inner + middle + tail)) // 28
    own = "".join(f"in {name_of(number)}->k.w\n" for number in range(names))
    return (inner + own + middle + "".join(f"in z->k.{name_of(number)}\n" for number in range(names)) + tail).encode()


def kept_on_levels(depth, lines):
    """Groups in each other, each with names of its own that lead, by so many lines to one of the group inside, to as many inputs as are kept."""
    front = "group C\ninstance d:M\nend\n" + leads(KEPT, "w")
    tail = "".join(f"instance j{place}:J\nend\n" for place in range(63)) + "connect a.y->j0.z\n"
    names = (LONGEST - 6_000) // (14 * depth * lines + 12)
    text = front
    for level in range(depth):
        text += f"group H{level}\ninstance k:{f'H{level - 1}' if level else 'C'}\nend\n"
        text += "".join(f"in {short_name(number)}->k.{short_name(number) if level else 'w'}\n" * lines for number in range(names))
    text += f"group J\ninstance k:H{depth - 1}\nend\n" + "".join(f"in z->k.{short_name(number)}\n" for number in range(names))
    return (text + with_unit(unit_with(KEPT)) + tail).encode()


def level_of_names(level, names, inner, lines):
    """A group around another, with names that lead by so many lines each to names of the other one, in no order."""
    order = shuffled(len(inner), level)
    led = [inner[order[place % len(inner)]] for place in range(lines * len(names))]
    text = [f"in {name}->k.{to}\n" for name, to in zip(names * lines, led)]
    random.Random(level).shuffle(text)
    return f"group T{level}\ninstance k:{f'T{level - 1}' if level else 'C'}\nend\n" + "".join(text)


def names_on_levels(inputs, places, widths, lines, connections):
    """Names that lead by so many lines each to others inside, and at last to so many inputs; the outermost of them, in so many places, are led
    to by some connections: by each to more inputs than are kept, and to no more in all than there may be."""
    text = "group C\ninstance d:M\nend\n" + leads(inputs, "w")
    inner = ["w"]
    for level, width in enumerate(reversed(widths)):
        names = [short_name(number) for number in range(width)]
        text += level_of_names(level, names, inner, lines)
        inner = names
    outermost = len(widths) - 1
    text += "group G\n" + "".join(f"instance {place_name(place)}:T{outermost}\nend\n" for place in range(places))
    starts = [f"in x->{place_name(place)}.{name}\n" for name in inner for place in range(places)]
    random.Random(places).shuffle(starts)
    tail = with_unit(unit_with(inputs)) + "instance g:G\nend\n" + "connect a.y->g.x\n" * connections
    return (text + "".join(starts) + tail).encode()


def trees_of_names(inputs, places, depth, connections):
    """Names each of which leads to two others inside, on so many levels, from 40 of them on; no level is wider than there is room for."""
    widest = 40 * 2**depth
    while True:
        widths = [min(40 * 2**level, widest) for level in range(depth)]
        if sum(widths) * 28 + 40 * places * 13 < LONGEST - 20_000:
            return names_on_levels(inputs, places, widths, 2, connections)
        widest -= 100


def chains_of_names(inputs, places, depth, connections):
    """As many names on each of so many levels, each of which leads to one other inside."""
    width = (LONGEST - 20_000) // (14 * depth + 13 * places)
    return names_on_levels(inputs, places, [width] * depth, 1, connections)


def names_by_two_lines(connections, places):
    """Many names that lead by two lines each to as many inputs as are kept, and one input that leads to each of them and to one input more:
    some connections lead to it, and then, where there are some, one leads to it in many places."""
    text = "group C\ninstance d:M\nend\n" + leads(KEPT, "w") + f"in v->d.{name_of(KEPT)}\ngroup H\ninstance k:C\nend\nin v->k.v\n"
    tail = with_unit(unit_with(KEPT + 1)) + "instance g:J\nend\n" + "connect a.y->g.z\n" * connections
    group = ""
    if places:
        group = "group F\n" + "".join(f"instance j{place}:J\nend\nin x->j{place}.z\n" for place in range(places))
        tail += "instance f:F\nend\nconnect a.y->f.x\n"
    names = (LONGEST - len(text + group + tail) - 60) // 36
    text += "".join(f"in {short_name(number)}->k.w\n" * 2 for number in range(names)) + "group J\ninstance k:H\nend\nin z->k.v\n"
    text += "".join(f"in z->k.{short_name(number)}\n" for number in range(names))
    return (text + group + tail).encode()


def twins(inner):
    """Instances of a group whose names are underscores, and inputs that lead to as many inputs of theirs as are kept, each in an order of its
    own, and one that leads to one more. Where such instances are inside others, names join to the same ones, and scopes in one place are those
    in others. The orders, and the text."""
    inputs = KEPT // inner
    text = "group J\ninstance d:M\nend\n" + "".join(f"in {name_of(number)}->d.{name_of(number)}\n" for number in range(inputs + 1))
    text += "group H\n" + "".join(f"instance {'_' * twin}:J\nend\n" for twin in range(1, inner + 1))
    leading = [(twin, number) for twin in range(1, inner + 1) for number in range(inputs)]
    orders = "bcdefgijklmnopqrsuv"
    for seed, order in enumerate(orders):
        random.Random(seed).shuffle(leading)
        text += "".join(f"in {order}->{'_' * twin}.{name_of(number)}\n" for twin, number in leading)
    return orders, text + f"in A->_.{name_of(inputs)}\n"


def twins_connected(places, inner):
    """Instances of S whose names are underscores, whose inputs `z` are all led to by some connections: as many as there may be. The text has
    more components than names for them."""
    inputs = KEPT // inner
    text = "group G\n" + "".join(f"instance {'_' * twin}:S\nend\nin x->{'_' * twin}.z\n" for twin in range(1, places + 1))
    connections = 2_048 // ((places + inner - 1) * inputs + places)
    return text + with_unit(unit_with(inputs + 1)) + "instance g:G\nend\n" + "connect a.y->g.x\n" * connections


def twin_places(places, inner, lines):
    """Many names that lead by so many lines each to the inputs of twins, in so many places."""
    orders, text = twins(inner)
    text += "group T\ninstance _:H\nend\nin A->_.A\n"
    outer = "group S\ninstance _:T\nend\nin z->_.A\n"
    tail = twins_connected(places, inner)
    names = (LONGEST - len(text + outer + tail)) // (12 * lines + 12)
    text += "".join(f"in {short_name(number)}->_.{orders[(number + line) % len(orders)]}\n" for number in range(names) for line in range(lines))
    return (text + outer + "".join(f"in z->_.{short_name(number)}\n" for number in range(names)) + tail).encode()


def few_of_twins(places, inner, inputs, lines):
    """Many names that lead by so many lines each to so many inputs of twins, in so many places; and an input beside them in each place that
    leads to one more than are kept."""
    rows = -(-(KEPT + 1) // inner)
    leading = [(twin, number) for number in range(rows) for twin in range(1, inner + 1)]
    text = "group J\ninstance d:M\nend\n" + "".join(f"in {name_of(number)}->d.{name_of(number)}\n" for number in range(rows))
    text += "group H\n" + "".join(f"instance {'_' * twin}:J\nend\n" for twin in range(1, inner + 1))
    orders = "bcdefgijklmnopqrsuv"
    few = leading[:inputs]
    for seed, order in enumerate(orders):
        random.Random(seed).shuffle(few)
        text += "".join(f"in {order}->{'_' * twin}.{name_of(number)}\n" for twin, number in few)
    text += "".join(f"in A->{'_' * twin}.{name_of(number)}\n" for twin, number in leading) + "group T\ninstance _:H\nend\nin A->_.A\n"
    outer = "group S\ninstance _:T\nend\nin z->_.A\n"
    tail = "group G\n" + "".join(f"instance {'_' * place}:S\nend\nin x->{'_' * place}.z\n" for place in range(1, places + 1))
    tail += with_unit(unit_with(rows + 1)) + "instance g:G\nend\n" + "connect a.y->g.x\n" * (2_048 // ((places + inner - 1) * rows))
    names = (LONGEST - len(text + outer + tail)) // (12 * lines + 12)
    text += "".join(f"in {short_name(number)}->_.{orders[(number + line) % len(orders)]}\n" for number in range(names) for line in range(lines))
    return (text + outer + "".join(f"in z->_.{short_name(number)}\n" for number in shuffled(names, 3)) + tail).encode()


def twin_levels(places, inner, levels):
    """As `twin_places`, but names are on so many levels, and each leads to one of the next level too, in no order, so that what is known of
    them is far from what is known of those that walks visit before and after them."""
    orders, text = twins(inner)
    tail = twins_connected(places, inner)
    names = [short_name(number) for number in range((LONGEST - len(text + tail) - 1_000) // (38 * levels))]
    led, inside, more = [orders[number % len(orders)] for number in range(len(names))], "H", "in z->_.A\n"
    for level in range(levels):
        text += f"group T{level}\ninstance _:{inside}\nend\nin A->_.A\nin b->_.b\n"
        text += ("in z->_.z\n" if level > 1 else "") + (more if level else "")
        pairs = zip(shuffled(len(names), level), shuffled(len(names), level + levels))
        text += "".join(f"in {names[own]}->_.{led[other]}\nin {names[own]}->_.b\n" for own, other in pairs)
        led, inside = names, f"T{level}"
        more = "in z->_.A\n" + "".join(f"in z->_.{names[number]}\n" for number in shuffled(len(names), level + 2 * levels))
    return (text + f"group S\ninstance _:{inside}\nend\nin z->_.z\n" + more + tail).encode()


def twin_trees(places, inner, inputs, steps):
    """Names on five levels, each of which leads by so many lines to names of the next level, in no order, and at last by two lines to so many
    inputs of twins; some connections lead to those of the first level in each of so many places, and so to more than are kept."""
    rows = -(-inputs // inner)
    leading = [(twin, number) for number in range(rows) for twin in range(1, inner + 1)][:inputs]
    random.Random(inputs).shuffle(leading)
    text = "group J\ninstance d:M\nend\n" + "".join(f"in {name_of(number)}->d.{name_of(number)}\n" for number in range(rows + 1))
    text += "group H\n" + "".join(f"instance {'_' * twin}:J\nend\n" for twin in range(1, inner + 1))
    text += "".join(f"in w->{'_' * twin}.{name_of(number)}\n" for twin, number in leading) + f"in z->_.{name_of(rows)}\n"
    names = (LONGEST - len(text) - 8_000) // (14 * steps * sum(steps**level for level in range(4)) + 24 * steps**4 + places * (11 + places))
    led, inside = ["w"], "H"
    for level in reversed(range(5)):
        own = [short_name(number) for number in shuffled(names * steps**level, level)]
        lines = [name for name in own for _ in range(steps if level < 4 else 2)]
        order = shuffled(len(lines), level + 5)
        text += f"group T{level}\ninstance _:{inside}\nend\nin z->_.z\n"
        text += "".join(f"in {name}->_.{led[order[place] % len(led)]}\n" for place, name in enumerate(lines))
        led, inside = own, f"T{level}"
    text += "group G\n" + "".join(f"instance {'_' * place}:T0\nend\n" for place in range(1, places + 1))
    starts = [f"in x->{'_' * place}.{name}\n" for place in range(1, places + 1) for name in led]
    random.Random(places).shuffle(starts)
    reached = (places + inner - 1) * rows
    more = max(KEPT + 1 - reached, 0)
    text += "".join(starts) + "".join(f"in x->{'_' * place}.z\n" for place in range(1, more + 1))
    return (text + with_unit(unit_with(rows + 1)) + "instance g:G\nend\n" + "connect a.y->g.x\n" * (2_048 // (reached + more))).encode()


def twin_mixtures(places, inner, inputs, led_to=None, lines=2):
    """Names on five levels, each of which leads by two lines to names of the next level, in no order, and at last by so many to one of 30 inputs
    that lead to so many of so many inputs of twins each, all but one where no number is given; some connections lead to those of the first level in
    each of so many places. A first one leads to those of the fourth level in another order, so that what is known of names is in no order
    in which walks visit them."""
    rows = -(-inputs // inner)
    leading = [(twin, number) for number in range(rows) for twin in range(1, inner + 1)][:inputs]
    orders = [letter for letter in string.ascii_letters if letter not in "thabyxz"][:30]
    text = "group J\ninstance d:M\nend\n" + "".join(f"in {name_of(number)}->d.{name_of(number)}\n" for number in range(rows + 1))
    text += "group H\n" + "".join(f"instance {'_' * twin}:J\nend\n" for twin in range(1, inner + 1))
    for seed, order in enumerate(orders):
        few = random.Random(seed).sample(leading, led_to or inputs - 1)
        text += "".join(f"in {order}->{'_' * twin}.{name_of(number)}\n" for twin, number in few)
    text += f"in z->_.{name_of(rows)}\n"
    first = (LONGEST - len(text) - 8_000) // (28 * 15 + 12 * lines * 16 + 13 * 8 + places * (12 + places // 2))
    led, inside = orders, "H"
    for level in reversed(range(5)):
        own = [short_name(number) for number in shuffled(first * 2**level, level)]
        text += f"group T{level}\ninstance _:{inside}\nend\nin z->_.z\n" + ("in y->_.y\n" if level < 2 else "")
        if level == 2:
            text += "".join(f"in y->_.{name}\n" for name in random.Random(7).sample(led, len(led)))
        if level == 4:
            text += "".join(f"in {name}->_.{orders[place % len(orders)]}\n" * lines for place, name in enumerate(own))
        else:
            order = shuffled(2 * len(own), level + 5)
            text += "".join(f"in {name}->_.{led[order[2 * place + line] % len(led)]}\n" for place, name in enumerate(own) for line in range(2))
        led, inside = own, f"T{level}"
    text += "group G\n" + "".join(f"instance {'_' * place}:T0\nend\n" for place in range(1, places + 1)) + "in y->_.y\n"
    starts = [f"in x->{'_' * place}.{name}\n" for place in range(1, places + 1) for name in led]
    random.Random(places).shuffle(starts)
    reached = (places + inner - 1) * rows
    more = max(KEPT + 1 - reached, 0)
    text += "".join(starts) + "".join(f"in x->{'_' * place}.z\n" for place in range(1, more + 1))
    wires = "connect a.y->g.y\n" + "connect a.y->g.x\n" * ((2_048 - inner * rows) // (reached + more))
    return (text + with_unit(unit_with(rows + 1)) + "instance g:G\nend\n" + wires).encode()


def numbers_apart(side, lots, names, connections):
    """So many names, each of which leads by two lines to as many inputs of twins as are kept; some connections lead to them by line after line, in
    as many places as there are twins, and so to one input more. A first connection leads to lots of 63 other inputs, each of them after one of
    those that are kept, so that what is kept of a name is far apart among all inputs that are met."""
    rows = -(-(KEPT + 1) // side)
    leading = [(twin, number) for number in range(rows) for twin in range(1, side + 1)][: KEPT + 1]
    more = -(-63 * lots // side)
    others = [(twin, rows + number) for twin in range(1, side + 1) for number in range(more)]
    ports = [name_of(number) for number in range(rows + more)]
    inner = "group H\n" + "".join(f"instance {'_' * twin}:J\nend\n" for twin in range(1, side + 1))
    first = []
    for lot in range(lots):
        for twin, led in itertools.groupby(others[63 * lot : 63 * lot + 63], key=lambda one: one[0]):
            name = f"E{lot}x{twin}"
            before = [leading[lot]] if not first or not first[-1][1].startswith(f"E{lot}x") else []
            inner += "".join(f"in {name}->{'_' * own}.{ports[number]}\n" for own, number in before + list(led))
            first.append((twin, name))
    inner += "".join(f"in b->{'_' * twin}.{ports[number]}\n" for twin, number in (leading[place] for place in shuffled(KEPT, lots)))
    inner += "".join(f"in z->{'_' * twin}.{ports[number]}\n" for twin, number in leading) + "out q=_.q\n"
    text = "group J\ninstance d:M\nend\n" + "".join(f"in {port}->d.{port}\n" for port in ports) + "out q=d.q\n" + inner
    text += "group T\ninstance _:H\nend\nout q=_.q\n" + "".join(f"in {name}->_.{name}\n" * 2 for _, name in first) + "in z->_.z\n"
    own = [short_name(number) for number in range(names)]
    text += "".join(f"in {name}->_.b\n" * 2 for name in own)
    text += "group S\ninstance _:T\nend\nout q=_.q\nin z->_.z\n" + "".join(f"in {name}->_.{name}\n" for _, name in first)
    places = [f"instance {'_' * place}:S\nend\nin x->{'_' * place}.z\n" for place in range(1, side + 1)]
    end = "group G\nout q=_.q\n" + "".join(places) + "".join(f"in e->{'_' * (side + 1 - twin)}.{name}\n" for twin, name in first)
    unit = "unit M\n" + "".join(f"input {port}:Int8=0\n" for port in ports) + "output q:Int8=0\nend\n"
    end += "main\ncosim 1\n" + unit + "stop 3\ninstance g:G\nend\nconnect g.q->g.e\n" + "connect g.q->g.x\n" * connections
    order = itertools.cycle(shuffled(names, side))
    while len(text) + len(end) < LONGEST - 20:
        text += f"in z->_.{own[next(order)]}\n"
    return (text + end).encode()


def numbers_at_ends():
    """Names that lead by two lines to as many inputs as are kept, of which each comes after as many others that are met before: so that what is
    known of each name takes most memory. One connection leads to all of them, and so to more than there may be."""
    ports = [name_of(number) for number in range(2 * KEPT)]
    places = [place_name(place) for place in range(64)]
    lots = [(place, half) for place in places for half in range(2)]
    text = "group J\ninstance d:M\nend\nout q=d.q\n" + "".join(f"in {port}->d.{port}\n" for port in ports)
    text += "".join(f"in P{place // KEPT}->d.{port}\n" for place, port in enumerate(ports))
    text += "group H\n" + "".join(f"instance {place}:J\nend\n" for place in places) + f"out q={places[0]}.q\n"
    text += "".join(f"in F{place}x{half}->{place}.P{half}\n" for place, half in lots)
    text += "".join(f"in b->{place}.{ports[(half + 1) * KEPT - 1]}\n" for place, half in lots)
    text += "group T\ninstance _:H\nend\nout q=_.q\n" + "".join(f"in F{place}x{half}->_.F{place}x{half}\n" * 2 for place, half in lots)
    end = "".join(f"in z->_.F{place}x{half}\n" for place, half in lots)
    unit = "unit M\n" + "".join(f"input {port}:Int8=0\n" for port in ports) + "output q:Int8=0\nend\n"
    outer = "group S\ninstance _:T\nend\nout q=_.q\n" + end
    main = "main\ncosim 1\n" + unit + "stop 3\ninstance g:S\nend\nconnect g.q->g.z\n"
    names = [short_name(number) for number in range((LONGEST - len(text + outer + main)) // 38)]
    text += "".join(f"in {name}->_.b\n" * 2 for name in names)
    return (text + outer + "".join(f"in z->_.{name}\n" for name in names) + main).encode()


def few_inside(parts, places):
    """An input that leads by few lines to one in each of so many places of as many parts, and so to few more inputs than are added: in each place
    names on eight levels lead by two lines each to one input. As many connections lead to it as there may be, and a first one to the names in
    another order, so that what is known of them is in no order in which walks visit them."""
    text, led, inside = f"group H\ninstance d:M\nend\nin {name_of(0)}->d.{name_of(0)}\n", [name_of(0)], "H"
    width = (LONGEST - 6_000) // (28 * 8 + 26)
    for level in range(8):
        own = [short_name(number) for number in shuffled(width, level)]
        order = shuffled(2 * width, level + 8)
        text += f"group T{level}\ninstance _:{inside}\nend\n"
        text += "".join(f"in {name}->_.{led[order[2 * place + line] % len(led)]}\n" for place, name in enumerate(own) for line in range(2))
        led, inside = own, f"T{level}"
    text += f"group Z\ninstance _:{inside}\nend\n" + "".join(f"in z->_.{led[number]}\n" for number in shuffled(width, 17))
    text += "".join(f"in y->_.{led[number]}\n" for number in shuffled(width, 18))
    for name, inner, count in (("P", "Z", places), ("G", "P", parts)):
        text += f"group {name}\n" + "".join(f"instance {place_name(place)}:{inner}\nend\n" for place in range(count))
        text += "".join(f"in {'x' if name == 'G' else 'z'}->{place_name(place)}.z\n" for place in range(count)) + f"in y->{place_name(0)}.y\n"
    wires = "connect a.y->g.y\n" + "connect a.y->g.x\n" * (2_047 // (parts * places))
    return (text + with_unit(unit_with(2)) + "instance g:G\nend\n" + wires).encode()


def place_name(place):
    """A name of one letter or two for a place, other than `a`, `h` and `t`."""
    letters = [letter for letter in string.ascii_letters if letter not in "aht"]
    first, last = divmod(place, len(letters))
    return "_" * first + letters[last]


def lines_in_scopes():
    """Lines of a group that is in as many chains of groups as there may be."""
    groups = "group C\ninstance d:D\nend\nin x->d.u\n"
    for number in range(2, 14):
        groups += f"group G{number}\ninstance k:G{number - 1}\nend\nin x->k.x\n"
    main = NESTED_MAIN + "".join(f"instance j{place}:G13\nend\n" for place in range(63)) + "connect a.y->j0.x\n"
    return filled(groups + "group G1\ninstance k:C\nend\n", lambda number: "in x->k.x\n", main)


def connected_outputs():
    """Many outputs, through two groups, and as many connections from them as there may be."""
    inner = "group H\ninstance d:D\nend\n" + "".join(f"out {name_of(number)}=d.p\n" for number in range(25_000))
    outer = "group G\ninstance k:H\nend\n" + "".join(f"out {name_of(number)}=k.{name_of(number)}\n" for number in range(25_000))
    wires = "".join(f"connect g.{name_of(number)}->a.u\n" for number in range(2_048))
    return (inner + outer + ONE_GROUP + wires).encode()


def samples_down(depth):
    """As many connections as there may be, and many samples, down a chain of groups."""
    groups = "group G0\ninstance d:D\nend\nin x->d.u\nout y=d.p\n"
    for number in range(1, depth):
        groups += f"group G{number}\ninstance k:G{number - 1}\nend\nin x->k.x\nout y=k.y\n"
    main = NESTED_MAIN + f"instance g:G{depth - 1}\nend\n" + "connect a.y->g.x\n" * 2_048
    return filled(groups + main, lambda number: "sample g.y\n")


def outputs_down(depth, outputs):
    """Samples of many outputs, each of which leads down the same chain of groups."""
    groups = "group G0\ninstance d:D\nend\nout y=d.p\n"
    for number in range(1, depth - 1):
        groups += f"group G{number}\ninstance k:G{number - 1}\nend\nout y=k.y\n"
    groups += f"group H\ninstance k:G{depth - 2}\nend\n" + "".join(f"out {name_of(number)}=k.y\n" for number in range(outputs))
    return (groups + ONE_GROUP.replace("g:G", "g:H") + "".join(f"sample g.{name_of(number)}\n" for number in range(outputs))).encode()


def outputs_on_levels(depth, places):
    """Samples of the outputs of so many groups, each of which leads down levels of names by names of its own."""
    width = (LONGEST - 20_000) // (15 * depth + 13 * places)
    names = [short_name(number) for number in range(width)]
    text = "group C\ninstance d:D\nend\nout y=d.p\n"
    for level in range(depth):
        inner = [names[place] for place in shuffled(width, level)] if level else ["y"] * width
        text += f"group T{level}\ninstance k:{f'T{level - 1}' if level else 'C'}\nend\n"
        text += "".join(f"out {name}=k.{to}\n" for name, to in zip(names, inner))
    instances = "".join(f"instance {place_name(place)}:T{depth - 1}\nend\n" for place in range(places))
    samples = "".join(f"sample {place_name(place)}.{name}\n" for place in range(places) for name in names)
    return (text + NESTED_MAIN + instances + samples).encode()


def outputs_of_places(depth, places):
    """Samples of many outputs of many instances of a group, each of which leads down a chain of groups of its own."""
    groups = "group G0\ninstance d:D\nend\nout y=d.p\n"
    for number in range(1, depth - 1):
        groups += f"group G{number}\ninstance k:G{number - 1}\nend\nout y=k.y\n"
    outputs = 1_500
    groups += f"group H\ninstance k:G{depth - 2}\nend\n" + "".join(f"out {name_of(number)}=k.y\n" for number in range(outputs))
    main = NESTED_MAIN + "".join(f"instance j{place}:H\nend\n" for place in range(places))
    return filled(groups + main, lambda number: f"sample j{number % places}.{name_of(number // places)}\n")
