"""Texts at the limits of the language: of each limit a text with so many of a thing. `.ci/program` compares the limits that the
documents have with what the program accepts."""
import re
from collections.abc import Callable

MOST_TERMS = 31


def model(unit: str = "", others: str = "", instances: int = 1, end: str = "stop 0\n") -> str:
    """A text with one unit A, instances of it, and other units before."""
    made = "".join(f"instance i{number}:A\nend\n" for number in range(instances))
    return f"cosim 1\n{others}unit A\n{unit}end\n{made}{end}"


def lines(form: str) -> Callable[[int], str]:
    """A unit with so many lines of a form, each with its number."""
    return lambda count: model("".join(form.format(number) + "\n" for number in range(count)))


def step(text: str) -> str:
    return model(f"state n:Int64=0\nstep\n{text}end\n")


def bytes_of_text(count: int) -> str:
    text = model()
    left = count - len(text)
    whole, rest = divmod(left, 1000)
    return text + ("#" * 999 + "\n") * whole + ("#" * (rest - 1) + "\n" if rest else "")


def sum_of(terms: int) -> str:
    return "+".join(["0"] * terms)


def cost_of_step(count: int) -> str:
    """A step of this cost, which is 1 itself: a loop, lines of an even cost, and one of 3 where what is left is odd."""
    left = count - 1
    text = "repeat 1000\n" + "n:=0\n" * 40 + "end\n"
    left -= 1 + 1000 * (40 * 2 + 1)
    if left % 2:
        text += "n:=abs(0)\n"
        left -= 3
    while left > 0:
        terms = min(MOST_TERMS, left // 2)
        text += f"n:={sum_of(terms)}\n"
        left -= 2 * terms
    return step(text)


def connections(count: int) -> str:
    """From one output to each input of instances with 32 of them, and then to the first ones again."""
    inputs = "".join(f"input u{number}:Int8=0\n" for number in range(32))
    ends = [f"i{number // 32 % 64}.u{number % 32}" for number in range(count)]
    return model(inputs + "output y:Int8=0\n", instances=64, end="".join(f"connect i0.y->{end}\n" for end in ends) + "stop 0\n")


def samples(count: int) -> str:
    outputs = "".join(f"output y{number}:Int8=0\n" for number in range(32))
    ends = [f"i{number // 32 % 64}.y{number % 32}" for number in range(count)]
    return model(outputs, instances=64, end="".join(f"sample {end}\n" for end in ends) + "stop 0\n")


def events(way: str, value: str) -> Callable[[int], str]:
    """Event ports, each of which counts as two."""
    return lambda count: lines(f"event {way} p{{}}:Int8{value}")(count // 2 + count % 2).replace("cosim 1", "cosim 2")


# Of each row of the table of limits the texts with so many of what it names, and the rule that refuses one more. A connection
# more than there may be ends at an input that has one, which is judged before.
LIMITS: dict[str, list[tuple[Callable[[int], str], int]]] = {
    "a text": [(bytes_of_text, 2)],
    "a line": [(lambda count: model() + "#" * count + "\n", 3)],
    "a name": [(lambda count: model(f"state {'n' * count}:Int8=0\n"), 4)],
    "units, instances": [
        (lambda count: model(others="".join(f"unit B{number}\nend\n" for number in range(count - 1))), 16),
        (lambda count: model(instances=count), 16),
    ],
    "in a unit: parameters, inputs, outputs": [
        (lines("param p{}:Int8=0"), 16),
        (lines("input p{}:Int8=0"), 16),
        (lines("output p{}:Int8=0"), 16),
        (events("input", ""), 16),
        (events("output", "=absent"), 16),
    ],
    "in a unit: states, locals": [(lines("state p{}:Int8=0"), 16), (lines("local p{}:Int8"), 16)],
    "lines of a step": [(lambda count: step("n:=0\n" * count), 16)],
    "`if` and `repeat` in each other": [
        (lambda count: step("if true\n" * count + "end\n" * count), 5),
        (lambda count: step("repeat 1\n" * count + "end\n" * count), 5),
    ],
    "depth of an expression": [(lambda count: model(f"output y:Int64={sum_of(count)}\n"), 17)],
    "cost of an output, a `max` or a step": [(cost_of_step, 18)],
    "connections, samples": [(connections, 13), (samples, 16)],
    "`stop`, `longest`": [
        (lambda count: model(end=f"stop {count}\nlongest 1\n"), 20),
        (lambda count: model(end=f"stop 0\nlongest {count}\n"), 20),
    ],
    "`rows`": [(lambda count: model(end=f"stop 0\nrows {count}\n"), 4)],
    "`zero`": [(lambda count: model(end=f"stop 0\nzero {count}\n"), 4)],
}

# Rows that count in another way: how event ports count is tried with the ports.
COUNTED_ELSEWHERE = {"event ports"}

# The names in the table of rule 16 that the table of limits has otherwise.
OTHER_NAMES = {"`sample` lines": "samples", "lines between `step` and its own `end`": "lines of a step"}


def number_in(cell: str) -> int:
    """The number that a cell begins with."""
    found = re.match(r"10\^(\d+)|([\d,]+)", cell)
    return 10 ** int(found[1]) if found[1] else int(found[2].replace(",", ""))


def table_of_limits(page: str) -> dict[str, int]:
    """The rows of the first table of limits on a page: what each is about, and its number."""
    table = re.search(r"^\| of \| at most \|\n\|.*\n((?:\|.*\n)+)", page, re.M)[1]
    rows = [re.split(r" \| ", row.strip("| ")) for row in table.splitlines()]
    return {name: number_in(cell) for name, cell in rows if name not in COUNTED_ELSEWHERE}


def each_limit(table: dict[str, int]) -> dict[str, int]:
    """The limits of a table by the single things that its rows name."""
    names = [(re.sub(r"^in a unit: |, in a unit each|, those of .*", "", name), number) for name, number in table.items()]
    return {OTHER_NAMES.get(name, name): number for row, number in names for name in row.split(", ")}
