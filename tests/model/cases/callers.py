"""Random guests of several threads whose routines call functions, in each way in which words of a program may look like calls and returns."""
from cases.guests import Guest, theme_weights
from model.abi import Call
from model.assembler import (STOP, Jump, Label, LoadLabel, Program, add_immediate, branch_form, call_words, image_of, immediate_form, jump_form,
                             jump_register, load_number)

LEVELS, WIDTH = 3, 2  # a function calls those of deeper levels, and ends with a jump to one of its own
KEPT, TARGET, COUNT = 20, 6, 28  # registers: the first of those that keep links, one to jump by, and one that counts
LINKS = [1, 1, 1, 5]
WEIGHTS = {"mutex": 4, "condition": 2, "barrier": 1, "lock": 1, "thread": 6, "cancel": 8, "stream": 1, "odd": 0.1}
ROUNDS = [2, 5, 5, 40, 40]
MANY = [100, 300, 300, 600, 1100]


def move(destination, source):
    return add_immediate(destination, source, 0)


def counted(chance, words, rounds=ROUNDS):
    """A loop; the rounds are drawn."""
    return [*load_number(COUNT, chance.choice(rounds)), *words, add_immediate(COUNT, COUNT, -1),
            branch_form(1, COUNT, 0, -4 * (len(words) + 1))]


def returned(link):
    """To the word behind, by its address."""
    return [0x17 | link << 7, add_immediate(link, link, 12), jump_register(0, link, 0)]


class Caller(Guest):
    """In the place of the log of calls there are calls of functions."""

    def __init__(self, chance):
        self.functions = [[(f"function {level} {number}", chance.choice(LINKS)) for number in range(WIDTH)] for level in range(LEVELS)]
        self.oddity = chance.choice([0, 0, 0.1, 0.3])
        super().__init__(chance)

    def theme_weights(self):
        return {**theme_weights(), **WEIGHTS}

    def logged(self, number, *arguments):
        return [*self.visit(0), *call_words(number, *arguments), *self.visit(0)]

    def visit(self, level):
        """Words that call a function of this level or a deeper one, or words that look like that; or none."""
        chance = self.chance
        if level == LEVELS or chance.random() < 0.4:
            return []
        if chance.random() < self.oddity:
            return self.odd_words()
        name, link = chance.choice(self.functions[chance.randrange(level, LEVELS)])
        if chance.random() < 0.5:
            return [Jump(name, link)]
        return [LoadLabel(TARGET, name), jump_register(link, TARGET, 0)]

    def odd_words(self):
        """Calls of the word behind, returns without a call, jumps that do both, and jumps that are neither."""
        chance, link, other = self.chance, self.chance.choice([1, 5]), self.chance.choice([1, 5, 7, 0])
        ahead = [0x17 | link << 7, add_immediate(link, link, 12), jump_register(other, link, 0)]
        return chance.choice([
            [jump_form(link, 4)], counted(chance, [jump_form(link, 4)]), returned(link), counted(chance, returned(link)), ahead,
            [0x17 | TARGET << 7, jump_register(chance.choice([7, 0]), TARGET, 8)], [jump_form(7, 4)],
            [immediate_form(0x67, chance.choice([0, 0, 1]), link, 0, 2)] if chance.random() < 0.1 else [jump_form(link, 4)] * 2])

    def add_dump(self):
        super().add_dump()
        for level, functions in enumerate(self.functions):
            for number, (name, link) in enumerate(functions):
                self.add_function(level, number, name, link)

    def add_function(self, level, number, name, link):
        """It keeps its link, and has it again at its end."""
        chance, kept = self.chance, KEPT + 2 * level + number
        self.program.label(name)
        self.program.add([move(kept, link), *self.visit(level + 1)])
        for _ in range(chance.choice([0, 1, 1])):
            self.program.add([item for call in self.operation() for item in call_words(*call)])
        self.program.add([*self.visit(level + 1), move(link, kept), *self.end_of(level, number, link)])

    def end_of(self, level, number, link):
        chance = self.chance
        later = [name for name, other in self.functions[level][number + 1:] if other == link]
        if later and chance.random() < 0.5:
            return [Jump(later[0])]
        if chance.random() < self.oddity:
            return chance.choice([[move(TARGET, link), jump_register(0, TARGET, 0)], [jump_register(7, link, 0)],
                                  [jump_register(chance.choice([1, 5]), link, 0)], call_words(Call.THREAD_EXIT, 5)])
        return [jump_register(0, link, 0)]


class Digger:
    """A guest of three threads whose stacks grow to hundreds of functions, and fall again, by turns."""

    def __init__(self, chance):
        program = Program()
        for name in ("first", "second"):
            program.add(call_words(Call.CREATE, Label(name), 0, 0, 0))
        for name in ("main", "first", "second"):
            program.label(name)
            for _ in range(chance.choice([2, 3, 4])):
                link = chance.choice([1, 5])
                words = [jump_form(link, 4)] if chance.random() < 0.6 else returned(link)
                program.add(counted(chance, words * chance.choice([1, 1, 2]), MANY))
            program.add([STOP])
        self.image, self.dump_steps = image_of(program.words()), 0
