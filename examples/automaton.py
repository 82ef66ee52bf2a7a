"""Automaton files (docs/FORMATS.md, "Automaton file"), as the scripts of this folder read and write them."""
import bisect, re

WORDS = set("ws1s var0 var1 var2 const pred macro include defaultwhere1 defaultwhere2 where true false ex0 ex1 ex2 all0 all1 all2 "
            "let0 let1 let2 in notin sub empty min max union inter restrict import export pconst "
            "ws2s tree guide universe type assert verify execute prefix allpos lastpos".split())
NAME, NUMBER = "([A-Za-z_][A-Za-z0-9_']*)", "(0|[1-9][0-9]{0,9})"
REF = "([sn](?:0|[1-9][0-9]{0,9}))"


class Fault(Exception): pass


class Automaton:
    """What a file says: its version, its mode, its variables (order and name), its start, its states (sign and reference) and its nodes
    (variable, low and high reference). A reference is a word, as in the file."""

    def __init__(self, data):
        self.lines, self.at = re.split("(?<=\n)", data.decode("latin-1")), 0
        version, = self.line("monastr-dfa ([12])", "the format and its version")
        self.version = int(version)
        self.mode, = self.line("mode (ws1s|m2l-str)", "a mode")
        self.variables = []
        for _ in range(self.count("variables", 0)): self.read_variable()
        self.start, = self.line("start " + REF, "a start")
        begin = self.at
        signs = "([+0-]) " if self.version == 1 else "([+0x-]) "
        self.states = [self.line(signs + REF, "a state") for _ in range(self.count("states", 1))]
        self.nodes, self.tested = [], []
        for _ in range(self.count("nodes", 0)): self.read_node()
        self.line("end", "the end")
        if self.lines[self.at:] != [""]: raise Fault(f"line {self.at + 1}: something follows the end")
        self.follow(self.start, begin, {True})
        for place, (_, ref) in enumerate(self.states): self.follow(ref, begin + 2 + place, {False})
        if self.version == 2: self.check_outside(begin + 2)

    def line(self, pattern, wanted):
        """The fields of the next line."""
        found = re.fullmatch(pattern + "\n", self.lines[self.at] if self.at < len(self.lines) else "")
        self.at += 1
        if not found: raise Fault(f"line {self.at}: this is not {wanted}")
        return found.groups()

    def count(self, word, least):
        number = int(*self.line(f"{word} {NUMBER}", f"the number of {word}"))
        if not least <= number < 2 ** 32: raise Fault(f"line {self.at}: there can't be {number} {word}")
        return number

    def read_variable(self):
        order, name = self.line(f"([012]) {NAME}", "a variable")
        if name in WORDS: raise Fault(f"line {self.at}: {name} is a word of the language")
        if name in (other for _, other in self.variables): raise Fault(f"line {self.at}: {name} stands twice")
        self.variables.append((int(order), name))

    def read_node(self):
        """Reads a node, and notes whether truth values are tested from it on, and whether other variables are."""
        var, low, high = self.line(f"{NUMBER} {REF} {REF}", "a node")
        if int(var) >= len(self.variables): raise Fault(f"line {self.at}: there is no variable {var}")
        tested = {self.variables[int(var)][0] == 0}
        for ref in low, high:
            self.follow(ref, self.at, {True, False})
            if ref[0] == "n":
                if self.nodes[int(ref[1:])][0] <= int(var): raise Fault(f"line {self.at}: {ref} tests no later variable")
                tested |= self.tested[int(ref[1:])]
        self.nodes.append((int(var), low, high))
        self.tested.append(tested)

    def follow(self, ref, at, may_test):
        """Refuses a reference that leads nowhere, or to a test that may not stand there."""
        number = int(ref[1:])
        if number >= len(self.states if ref[0] == "s" else self.nodes): raise Fault(f"line {at}: {ref} is not there")
        if ref[0] == "n" and not self.tested[number] <= may_test:
            raise Fault(f"line {at}: behind {ref} {'numbers or sets' if True in may_test else 'truth values'} are tested")

    def check_outside(self, begin):
        """Refuses signs other than x of words that encode no assignment, and the sign x of others. A state, or a node, may stand behind
        words in which the same numbers have had their 1, or behind words in which some number has had two (None)."""
        numbers = [place for place, (order, _) in enumerate(self.variables) if order == 1]
        seen, left, starts = {}, [], [self.start]

        def arrive(ref, had, level):
            tested = self.nodes[int(ref[1:])][0] if ref[0] == "n" else len(self.variables)
            skipped = bisect.bisect_left(numbers, level) < bisect.bisect_left(numbers, tested)
            if had is not None and skipped or seen.get(ref, had) != had: raise Fault(f"{ref} is reached by words that encode an assignment and by others")
            if ref not in seen: seen[ref] = had; left.append(ref)

        while starts:
            ref = starts.pop()
            if ref[0] == "s": arrive(ref, frozenset(), len(self.variables))
            elif ref not in seen: seen[ref] = frozenset(); starts += self.nodes[int(ref[1:])][1:]
        while left:
            ref = left.pop()
            had, number = seen[ref], int(ref[1:])
            if ref[0] == "s":
                sign, after = self.states[number]
                if (sign == "x") == (had is not None and len(had) == len(numbers)):
                    raise Fault(f"line {begin + number}: x is the sign of words that encode no assignment, and of no others")
                arrive(after, had, 0)
            else:
                var, low, high = self.nodes[number]
                arrive(low, had, var + 1)
                if had is not None and self.variables[var][0] == 1: had = None if var in had else had | {var}
                arrive(high, had, var + 1)

    def text(self):
        """The file that says this."""
        yield f"monastr-dfa {self.version}"
        yield f"mode {self.mode}"
        yield f"variables {len(self.variables)}"
        for order, name in self.variables: yield f"{order} {name}"
        yield f"start {self.start}"
        yield f"states {len(self.states)}"
        for sign, ref in self.states: yield f"{sign} {ref}"
        yield f"nodes {len(self.nodes)}"
        for var, low, high in self.nodes: yield f"{var} {low} {high}"
        yield "end"
