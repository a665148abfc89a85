"""The kinds of expressions: which operand or result is of another kind than is expected."""
from typing import Dict, NamedTuple, Optional, Sequence, Tuple

from ..formatting import space
from ..grammar import Node
from ..lines import NUMBER, Token
from ..nests import Declared

# The cases of rule 10 that docs/RULES.md has a cure of its own for.
ABSENT = "`absent` where a word is expected"
COMPARED = "a comparison with `absent`"
IN_OPERAND = "`absent` in an operand of an event output"
EVENT = "an event input as a condition"
CONDITION = "a condition that is no truth value"
KINDS = "numbers of different kinds"
WHOLE_DIVISION = "`/` of whole numbers"
FIXED_DIVISION = "`div` or `mod` of numbers with decimals"
TRUTH = "a truth value where a number is expected"
NO_TRUTH = "a number where a truth value is expected"
RESULT = "a result of another kind than its target"
NO_BOOL = "a number for a `Bool`"
FORM_OF_LITERAL = "a literal of another form than its type"

BOOL, INT = "Bool", "Int"


class Cause(NamedTuple):
    """What is to be said of a refusal, and the case of its cure, if it has one of its own."""

    details: Tuple[str, ...] = ()
    case: Optional[str] = None


class Wrong(Exception):
    """An expression that has no kind."""

    def __init__(self, message: str, case: str) -> None:
        super().__init__(message)
        self.cause = Cause((message,), case)


def kind_of_type(type_name: str) -> str:
    return type_name if type_name == BOOL or type_name.startswith("Fixed") else INT


def kind_of_number(text: str) -> str:
    found = NUMBER.fullmatch(text)
    return f"Fixed {len(found[2])}" if found and found[2] else INT


class Kinds:
    """The kinds of the expressions of a line."""

    def __init__(self, tokens: Sequence[Token], declared: Dict[str, Declared]) -> None:
        self.tokens = tokens
        self.declared = declared

    def quoted(self, node: Node) -> str:
        return f"`{space([token.text for token in self.tokens[node.first : node.last]])}`"

    def kind(self, node: Node, may_be_absent: bool = False) -> Optional[str]:
        """The kind of an expression; none where it is absent."""
        if node.text == "absent":
            if not may_be_absent:
                raise Wrong("`absent` is no word, and one is expected here", ABSENT)
            return None
        if node.text == "if":
            return self.choice(node, may_be_absent)
        if node.text in ("==", "!=") and "absent" in [part.text for part in node.parts]:
            raise Wrong("`absent` is no word, and can't be compared", COMPARED)
        kinds = [self.kind_of_operand(part, may_be_absent) for part in node.parts]
        if node.text in ("and", "or", "not"):
            self.each_is(node, kinds, BOOL)
            return BOOL
        if not node.parts:
            return self.leaf(node.text)
        if node.text == "int":
            return INT
        if node.text in ("==", "!="):
            self.alike(node, kinds)
            return BOOL
        for part, kind in zip(node.parts, kinds):
            if kind == BOOL:
                raise Wrong(f"{self.quoted(part)} is a truth value, and `{node.text.split()[0]}` takes numbers", TRUTH)
        self.alike(node, kinds)
        return self.result(node, kinds)

    def kind_of_operand(self, node: Node, is_event: bool) -> str:
        """The kind of an operand, which is never absent; in an event output the whole expression may be."""
        try:
            return self.kind(node) or INT
        except Wrong as wrong:
            if is_event and wrong.cause.case == ABSENT:
                raise Wrong("`absent` is in an operand, and an operand is a word", IN_OPERAND) from wrong
            raise

    def leaf(self, text: str) -> str:
        if text in ("true", "false", "present"):
            return BOOL
        if text in self.declared:
            return kind_of_type(self.declared[text].type)
        return kind_of_number(text)

    def result(self, node: Node, kinds: Sequence[str]) -> str:
        if node.text.startswith("fix "):
            return f"Fixed {node.text.split()[1]}"
        if node.text == "/" and kinds[0] == INT:
            raise Wrong(f"`/` takes numbers with decimals, and {self.quoted(node.parts[0])} is whole", WHOLE_DIVISION)
        if node.text in ("div", "mod") and kinds[0] != INT:
            raise Wrong(f"`{node.text}` takes whole numbers, and {self.quoted(node.parts[0])} is `{kinds[0]}`", FIXED_DIVISION)
        return BOOL if node.text in ("<", "<=", ">", ">=") else kinds[0]

    def choice(self, node: Node, may_be_absent: bool) -> Optional[str]:
        condition, *branches = node.parts
        self.is_truth(condition)
        kinds = [self.kind(branch, may_be_absent) for branch in branches]
        if None not in kinds:
            self.alike(node._replace(parts=tuple(branches)), [kind or INT for kind in kinds])
        return kinds[0] or kinds[1]

    def is_truth(self, condition: Node) -> None:
        kind = self.kind(condition)
        if kind != BOOL:
            raise Wrong(f"{self.quoted(condition)} is `{kind}`, and the condition of an `if` is a truth value", self.case_of_condition(condition))

    def case_of_condition(self, condition: Node) -> str:
        """The case of a condition that is no truth value."""
        declared = self.declared.get(condition.text)
        return EVENT if declared and declared.is_event else CONDITION

    def each_is(self, node: Node, kinds: Sequence[str], wanted: str) -> None:
        for part, kind in zip(node.parts, kinds):
            if kind != wanted:
                raise Wrong(f"{self.quoted(part)} is `{kind}`, and `{node.text}` takes truth values", NO_TRUTH)

    def alike(self, node: Node, kinds: Sequence[str]) -> None:
        """All operands have one kind, but for those of a conversion."""
        for part, kind in zip(node.parts[1:], kinds[1:]):
            if kind != kinds[0]:
                case = KINDS if BOOL not in (kind, kinds[0]) else TRUTH
                raise Wrong(f"{self.quoted(node.parts[0])} is `{kinds[0]}`, and {self.quoted(part)} is `{kind}`", case)
