"""Parts the text of an LLVM module into modules that are compiled side by side, for bench/unproved --quick.

A function with one caller goes where its caller does. Such a group goes into one of the parts if it is long or the program's entry, and the
other parts declare its first function. The short groups are repeated in each part that calls them, so that they are still inlined there.
"""

import collections
import re

NAME = re.compile(r'"[^"]*"|[\w.$]+')
REFERENCE = re.compile(r'@("[^"]*"|[\w.$]+)')
# A group of at most so many lines is repeated.
SHORT = 300


class Module:
    """A module in text form: what comes before its functions, the functions by name, and what comes after them."""

    def __init__(self, lines):
        self.head, self.functions, self.tail = [], {}, []
        body = None
        for line in lines:
            if body is not None:
                body.append(line)
                if line == "}\n":
                    body = None
            elif line.startswith("define"):
                body = self.functions[NAME.match(line, line.index("@") + 1)[0]] = [line]
            elif line != "\n" and not line.startswith(";"):
                (self.tail if self.functions else self.head).append(line)
        self.uses = {name: self.used_by(body, name) for name, body in self.functions.items()}

    def used_by(self, lines, name=None):
        """The functions that these lines of a function name, but for itself."""
        return {it for it in REFERENCE.findall("".join(lines)) if it in self.functions and it != name}

    def entries(self):
        """The functions that something outside of all functions may call."""
        return {name for name, body in self.functions.items() if not body[0].startswith("define internal")} | self.used_by(self.head)

    def reached(self, names, stop=()):
        """These functions and all that they use, but nothing of `stop` that is not among them."""
        found, left = set(), list(names)
        while left:
            name = left.pop()
            if name not in found:
                found.add(name)
                left += [it for it in self.uses[name] if it not in stop]
        return found

    def declaration(self, name):
        """The line that declares a function of another part."""
        words = re.sub(r"^define (internal )?", "declare hidden ", self.functions[name][0])
        return words[: words.rindex(")") + 1] + "\n"

    def definition(self, name, is_shared):
        """The lines that define a function."""
        first, *rest = self.functions[name]
        return [first.replace("define internal", "define hidden") if is_shared else first, *rest, "\n"]


def groups_of(module, names, entries):
    """Parts functions into groups, each by its first function: one that has not exactly one caller, or is an entry."""
    callers = collections.defaultdict(set)
    for name in names:
        for it in module.uses[name]:
            callers[it].add(name)
    groups = collections.defaultdict(list)
    for name in sorted(names):
        first = name
        # This ends, since an entry reaches each name.
        while first not in entries and len(callers[first]) == 1:
            (first,) = callers[first]
        groups[first].append(name)
    return groups


def parts_of(lines, count):
    """Yields the lines of each of so many modules."""
    module = Module(lines)
    entries = module.entries()
    groups = groups_of(module, module.reached(entries), entries)
    lengths = {first: sum(len(module.functions[it]) for it in names) for first, names in groups.items()}
    shared = [first for first in groups if first in entries or lengths[first] > SHORT]
    bins = [(0, [])] * count
    for first in sorted(shared, key=lambda it: (-lengths[it], it)):
        (length, firsts), *others = sorted(bins, key=lambda it: it[0])
        bins = [(length + lengths[first], [*firsts, first]), *others]
    for _, firsts in bins:
        own = module.reached(firsts, set(shared))
        used = set().union(*(module.uses[it] for it in own)) - own
        yield [
            *module.head,
            *(line for name in sorted(own) for line in module.definition(name, name in firsts)),
            *(module.declaration(name) for name in sorted(used)),
            *module.tail,
        ]
