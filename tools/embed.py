#!/usr/bin/env python3
"""embed.py FILE TABLE: an exported controller as one C file, which allocates nothing and calls nothing.

FILE is the specification, and TABLE what `spectra export FILE` wrote (`-`: the standard input). The file has a structure for the
inputs, one for the outputs, tables, and a function `NAME_step`, NAME being the specification's. It is C99, and wants <stdbool.h>
and <stdint.h> alone.

    spectra export examples/lift.spectra | tools/embed.py examples/lift.spectra - > lift.c

It ends with 2 where a file can't be read, or where the table is a counterstrategy's. It doesn't check that the controller wins.
"""
import sys
from textwrap import fill

from strategy import Strategy
from texts import Unreadable

WORDS = """auto bool break case char const continue default do double else enum extern false float for goto if inline int linux long
register restrict return short signed sizeof static struct switch true typedef union unix unsigned void volatile while asm typeof
alignas alignof constexpr nullptr static_assert thread_local typeof_unqual""".split()
WIDTHS = (8, 16, 32, 64)
# what the file has of its own, behind the specification's name
OWN = "inputs outputs step next begins row input answer answers ANSWERED BROKEN REFUSED".split()

CODE = """
/* Where the controller stands: 0 before the first position, else one more than a node. */
struct @NAME@ {
    uint16_t at;
};

/* What a step gives. */
enum {
    @NAME@_ANSWERED, /* the outputs are written, and the controller stands one position further */
    @NAME@_BROKEN,   /* the inputs break an assumption; nothing is written, and the controller stands where it stood */
    @NAME@_REFUSED   /* an input is none of its variable's values; nothing is written either */
};

/* The nodes that may come next, in rows; in a row their inputs rise. */
static const uint16_t @NAME@_next[] = {
@NEXT@
};
static const uint32_t @NAME@_begins[] = {
@BEGINS@
};
/* The row before the first position, and that of each node. */
static const uint16_t @NAME@_row[] = {
@ROW@
};
/* Of each node the inputs, as a number, and the outputs, as a place in the list below. */
static const uint16_t @NAME@_input[] = {
@INPUT@
};
static const uint16_t @NAME@_answer[] = {
@ANSWER@
};
static const struct @NAME@_outputs @NAME@_answers[] = {
@ANSWERS@
};

/* Answers the inputs of one position. */
int @NAME@_step(struct @NAME@ *controller, const struct @NAME@_inputs *in, struct @NAME@_outputs *out)
{
    uint32_t number = 0;
    uint32_t low = @NAME@_begins[@NAME@_row[controller->at]];
    uint32_t high = @NAME@_begins[@NAME@_row[controller->at] + 1];
    const uint32_t end = high;
@READ@
    while (low < high) {
        const uint32_t middle = low + (high - low) / 2;
        if (@NAME@_input[@NAME@_next[middle]] < number)
            low = middle + 1;
        else
            high = middle;
    }
    if (low == end || @NAME@_input[@NAME@_next[low]] != number)
        return @NAME@_BROKEN;
    controller->at = (uint16_t)(@NAME@_next[low] + 1);
    *out = @NAME@_answers[@NAME@_answer[@NAME@_next[low]]];
    return @NAME@_ANSWERED;
}
"""


# ---- names and types


def c_name(name, taken):
    """A name that C takes, and that isn't taken yet."""
    made = "".join(sign if sign.isascii() else f"_u{ord(sign):X}" for sign in name)
    while made in taken or made in WORDS:
        made += "_"
    taken.add(made)
    return made


def is_enum(domain):
    return isinstance(domain[0], str)


def c_type(domain):
    """The smallest type that has the values of a domain, and one more at each end where it is a range."""
    if isinstance(domain[0], bool):
        return "bool"
    if is_enum(domain):
        return "uint8_t" if len(domain) < 2**8 else "uint16_t"
    return next(f"int{width}_t" for width in WIDTHS if -(2 ** (width - 1)) < domain[0] and domain[-1] < 2 ** (width - 1) - 1)


def c_number(number):
    """A whole number, as C writes it."""
    return f"{number}LL" if abs(number) >= 2**31 else str(number)


class Variable:
    """A variable of one of the two structures: its name, type and values in C."""

    def __init__(self, name, domain, members, constants):
        self.domain, self.type, self.name = domain, c_type(domain), c_name(name, members)
        self.constants = [c_name(f"{self.name}_{value}", constants) for value in domain] if is_enum(domain) else []

    def written(self, value):
        """A value, as it stands in a table."""
        if self.constants:
            return self.constants[self.domain.index(value)]
        return str(value).lower() if isinstance(value, bool) else c_number(value)

    def number(self, value):
        """The place of a value among those of the variable, from 0."""
        return self.domain.index(value)

    def lines_read(self):
        """The lines that take an input into the number of all inputs."""
        member, low = f"in->{self.name}", "" if self.constants or self.type == "bool" else self.domain[0]
        if self.constants:
            yield f"    if ({member} >= {len(self.domain)})\n        return @NAME@_REFUSED;"
        elif self.type != "bool":
            yield f"    if ({member} < {c_number(low)} || {member} > {c_number(self.domain[-1])})\n        return @NAME@_REFUSED;"
            member = f"({member} - {c_number(low)})" if low > 0 else f"({member} + {c_number(-low)})" if low < 0 else member
        yield f"    number = number * {len(self.domain)} + (uint32_t){member};"


# ---- the file


def wrapped(parts):
    """The parts of a table in lines; C has no empty tables."""
    return fill(", ".join(parts) or "0", 116, initial_indent="    ", subsequent_indent="    ", break_long_words=False)


def structure(name, variables):
    members = [f"    {variable.type} {variable.name};" for variable in variables] or ["    char none; /* there are no variables */"]
    return "\n".join([f"struct {name} {{", *members, "};"])


def number_of(variables, values):
    """The number of an assignment among all of them, as they are listed."""
    number = 0
    for variable, value in zip(variables, values):
        number = number * len(variable.domain) + variable.number(value)
    return number


class Tables:
    """The tables of the file: each row and each assignment of outputs once."""

    def __init__(self, strategy, inputs, outputs):
        nodes = strategy.nodes
        self.inputs = [number_of(inputs, node.state[1]) for node in nodes]
        rows = [sorted(row, key=self.inputs.__getitem__) for row in [strategy.table.first] + [node.follows for node in nodes]]
        self.rows = list(map(list, dict.fromkeys(map(tuple, rows))))
        self.row = [self.rows.index(row) for row in rows]
        self.answers = list(dict.fromkeys(node.state[2] for node in nodes))
        self.answer = [self.answers.index(node.state[2]) for node in nodes]
        self.begins = [sum(map(len, self.rows[:at])) for at in range(len(self.rows) + 1)]
        shown = [[variable.written(value) for variable, value in zip(outputs, answer)] for answer in self.answers]
        self.shown = ["{" + (", ".join(values) or "0") + "}" for values in shown]

    def parts(self):
        """What stands in place of each mark."""
        listed = {"NEXT": sum(self.rows, []), "BEGINS": self.begins, "ROW": self.row, "INPUT": self.inputs, "ANSWER": self.answer}
        return {mark: wrapped(map(str, numbers)) for mark, numbers in listed.items()} | {"ANSWERS": wrapped(self.shown or ["{0}"])}


def named(strategy):
    """The specification's name in C, and the variables of the two structures; no name stands for two things."""
    taken = set()
    name = c_name(strategy.source.name(), taken)
    taken |= {f"{name}_{word}" for word in OWN}
    inputs, outputs = set(), set()
    return (
        name,
        [Variable(one, domain, inputs, taken) for one, domain in strategy.inputs],
        [Variable(one, domain, outputs, taken) for one, domain in strategy.outputs],
    )


def file_of(strategy):
    """The C file."""
    name, inputs, outputs = named(strategy)
    parts = Tables(strategy, inputs, outputs).parts()
    parts["READ"] = "\n".join(line for variable in inputs for line in variable.lines_read()) or "    (void)in;"
    code = CODE
    for mark, text in [*parts.items(), ("NAME", name)]:
        code = code.replace(f"@{mark}@", text)
    enums = [f"enum {{ {', '.join(variable.constants)} }};" for variable in inputs + outputs if variable.constants]
    head = [
        f"/* A controller of {strategy.file.replace('*/', '* /')}, realizable with {strategy.claim()}: {len(strategy.nodes)} nodes.",
        " * Written by tools/embed.py. It allocates nothing, and calls nothing.",
        f" * Begin with `struct {name} controller = {{0}};`, and call {name}_step once for each position. */",
        "#include <stdbool.h>", "#include <stdint.h>", "", *(fill(line, 118, subsequent_indent="       ") for line in enums),
        structure(f"{name}_inputs", inputs), structure(f"{name}_outputs", outputs),
    ]  # fmt: skip
    return "\n".join(head) + "\n" + code


def main():
    if len(sys.argv) != 3 or sys.argv[1].startswith("--"):
        print(__doc__, file=sys.stderr)
        return 2
    try:
        strategy = Strategy(*sys.argv[1:])
        if not strategy.is_controller:
            raise Unreadable(f"{sys.argv[2]}: a counterstrategy; only a controller is embedded")
    except Unreadable as why:
        print(why, file=sys.stderr)
        return 2
    print(file_of(strategy), end="")
    return 0


if __name__ == "__main__":
    sys.exit(main())
