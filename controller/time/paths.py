"""The longest way through functions whose loops have bounds: blocks, jumps and calls, and each loop collapsed to what its turns cost.

A loop that turns n times goes back to its beginning n times at most, and leaves then: where its test stands at its end, that is a turn too
many. What is counted in all turns of a loop around it, or in all of a function, costs nothing on a way and is added where that is left:
loops, calls, and what turns that go through a function which was taken into their loop cost more than others.
"""
from constants import handed
from thumb import Refused


class Block:
    """Instructions that are entered at the first alone. An edge is the place where it leads, None at a return, and whether it jumps."""

    def __init__(self):
        self.instructions, self.edges = [], []

    @property
    def last(self):
        """The jump at its end; in place of a return that is made on a condition, the comparison by which that is chosen."""
        last = self.instructions[-1]
        tests = [each for each in self.instructions if each.name in ("cmp", "cmn", "tst", "teq")]
        return tests[-1] if last.is_way_out and tests else last


def leads_to(function, place, instruction):
    """Where an instruction may jump: the places of its function, and None for a return or for a function that it leaves for."""
    if instruction.label or instruction.writes_counter and not instruction.returns:
        labels = [instruction.label] if instruction.label else function.tables.get(place + 1)
        if not labels:
            raise Refused(f"{function.name} jumps by a pointer: {instruction.line}")
        if not set(labels) <= set(function.labels):
            raise Refused(f"{function.name} jumps to where no label is: {instruction.line}")
        return sorted({function.labels[label] for label in labels})
    return [None] if instruction.name == "b" or instruction.returns else []


def blocks_of(function):
    """The blocks that are reached from the first, by the places where they begin."""
    if function.unread:
        raise Refused(function.unread)
    leads = [leads_to(function, place, instruction) for place, instruction in enumerate(function.instructions)]
    starts = {target for targets in leads for target in targets} | {place + 1 for place, targets in enumerate(leads) if targets}
    blocks, waiting = {}, [0]
    while waiting:
        place = waiting.pop()
        if place in blocks:
            continue
        block = blocks[place] = Block()
        while True:
            if place >= len(leads):
                raise Refused(f"{function.name} runs past its end")
            instruction = function.instructions[place]
            block.instructions.append(instruction)
            block.edges.extend((target, True) for target in leads[place])
            place += 1
            if instruction.leaves or place in starts:
                break
        if not instruction.leaves:
            block.edges.append((place, False))
        waiting.extend(target for target, _ in block.edges if target is not None)
    return blocks


def order_of(blocks):
    """The blocks, each before those that it leads to where that is no way back."""
    order, seen, stack = [], {0}, [(0, iter(blocks[0].edges))]
    while stack:
        place, edges = stack[-1]
        target = next((target for target, _ in edges if target is not None and target not in seen), None)
        if target is None:
            order.append(place)
            stack.pop()
        else:
            seen.add(target)
            stack.append((target, iter(blocks[target].edges)))
    return order[::-1]


class Loop:
    """A natural loop: the place where it begins, the places of its blocks, and the loops just in it."""

    def __init__(self, header, places):
        self.header, self.places, self.inner = header, places, []


def dominators(order, before):
    """The blocks that are on every way to each."""
    above = {place: set(order) for place in order}
    above[0], changed = {0}, True
    while changed:
        changed = False
        for place in order[1:]:
            found = set.intersection(*(above[each] for each in before[place])) | {place}
            changed = changed or found != above[place]
            above[place] = found
    return above


def loops_of(name, blocks, order):
    """The loops that stand in no other, with those in them."""
    position, before = {place: at for at, place in enumerate(order)}, {place: set() for place in order}
    edges = [(place, target) for place in order for target, _ in blocks[place].edges if target is not None]
    for place, target in edges:
        before[target].add(place)
    above, bodies = dominators(order, before), {}
    for place, target in edges:
        if position[target] > position[place]:
            continue
        if target not in above[place]:
            raise Refused(f"{name} has a circle that is entered at two places")
        body, waiting = bodies.setdefault(target, {target}), [place]
        while waiting:
            each = waiting.pop()
            if each not in body:
                body.add(each)
                waiting.extend(before[each])
    loops = sorted((Loop(*body) for body in bodies.items()), key=lambda loop: len(loop.places))
    outermost = []
    for at, loop in enumerate(loops):
        around = [other.inner for other in loops[at + 1:] if loop.header in other.places]
        (around + [outermost])[0].append(loop)
    return outermost


class Here:
    """A function's blocks, their order and loops, and of each loop its name and how many turns one of it is.

    That is taken for loops that stand in no other or are the only one of their name here: where a loop around one was unrolled, there are
    several."""

    def __init__(self, function, sources):
        self.blocks = blocks_of(function)
        self.order = order_of(self.blocks)
        self.handed = handed(self.blocks, self.order, function.numbers)
        self.loops, self.names = loops_of(function.name, self.blocks, self.order), {}
        waiting = list(self.loops)
        for loop in waiting:
            blocks = [self.blocks[place] for place in sorted(loop.places)]
            instructions = [each for block in blocks for each in block.instructions]
            back = [block.last for block in blocks if any(target == loop.header for target, _ in block.edges)]
            self.names[loop.header] = sources.loop(function, instructions, back)
            waiting.extend(loop.inner)
        if set(self.names) != function.remarked & set(self.blocks):
            raise Refused(f"{function.name} has other loops than the compiler remarks")
        every = [name for name, _ in self.names.values()]
        alone = {loop.header for loop in self.loops}
        self.names = {
            header: (name, unrolled if header in alone or every.count(name) == 1 else 1) for header, (name, unrolled) in self.names.items()
        }


class Paths:
    """The longest ways through some functions by one measure, which says what an instruction costs, and what a jump by it costs besides.

    `sources` tells of a loop its name and how many turns one of it is, and of an instruction the functions that it comes from. `turns_of`
    is asked with a loop's name, or that of a function with `()` behind it, with who called the function in which that stands, with what
    constants this handed it, and with the loops and the function around it. It tells how often at most that is turned or gone through,
    in all of which of these, None for each time that it is entered, and a word: of what shares one, only what takes longest is as often
    as is told.
    """

    def __init__(self, functions, measure, turns_of, sources):
        self.functions, self.measure, self.turns_of, self.sources = functions, measure, turns_of, sources
        self.known, self.read, self.callers, self.handed = {}, {}, [None], [{}]

    def function(self, name, without=()):
        """What a function takes at most where none of some others is called by it."""
        return self.called(name, {}, (), without)[0]

    def called(self, name, constants, around, without=()):
        """What a function takes where it is handed some constants, and what is to be added for loops and calls that are counted in all turns
        of a loop around the call, or in all of a function around it."""
        caller = self.callers[-1]
        key = name, caller, tuple(sorted(constants.items())), around
        if key in self.known:
            return self.known[key]
        if name not in self.functions:
            raise Refused(f"{caller} calls {name}, whose text is not known")
        if name in self.callers:
            raise Refused("a circle of calls: " + ", ".join(self.callers[self.callers.index(name):]))
        if name not in self.read:
            self.read[name] = Here(self.functions[name], self.sources)
        here = self.read[name]
        self.callers.append(name)
        self.handed.append(constants)
        leaving, owed = self.ways(here, 0, here.blocks, here.loops, around + (name + "()",), without)
        self.callers.pop()
        self.handed.pop()
        if not leaving:
            raise Refused(f"{name} does not return")
        outside = {key: cost for key, cost in owed.items() if key[0] in around}
        self.known[key] = max(leaving.values()) + sum(owed.values()) - sum(outside.values()), outside
        return self.known[key]

    def often(self, name, around):
        return self.turns_of(name, self.callers[-2], self.handed[-1], around)

    def block(self, here, block, around, without):
        """What a block takes, None where it calls what is not called, and what is to be added for its calls."""
        cost, owed = 0, {}
        for instruction in block.instructions:
            called = instruction.called
            if called in without:
                return None, {}
            cost += self.measure.instruction(instruction)
            if called:
                cost += self.measure.jump(instruction) if instruction.name == "bl" else 0
                taken, more = self.called(called, here.handed[instruction], around)
                times, scope, word = self.often(called + "()", around)
                if scope:
                    # each time with all of it
                    more, cost_of_all = {}, times * (taken + sum(more.values()))
                    owed[scope, word] = max(cost_of_all, owed.get((scope, word), 0))
                else:
                    cost += taken
                for key, once in more.items():
                    owed[key] = max(once, owed.get(key, 0))
        return cost, owed

    def ways(self, here, first, places, inner, around, without):
        """What the longest way takes from the first block to each edge that leaves these places or goes back to the first, and what is to
        be added for loops and calls that are counted in all turns of a loop around."""
        headers = {loop.header: loop for loop in inner}
        deeper = {place for loop in inner for place in loop.places if place != loop.header}
        arrived, leaving, owed = {first: 0}, {}, {}
        for place in here.order:
            if place not in arrived or place in deeper:
                continue
            if place in headers:
                exits, more = self.loop(here, headers[place], around, without)
            else:
                block = here.blocks[place]
                cost, more = self.block(here, block, around, without)
                jump = self.measure.jump(block.instructions[-1])
                exits = {} if cost is None else {(place, target): cost + jumps * jump for target, jumps in block.edges}
            for key, cost in more.items():
                owed[key] = max(cost, owed.get(key, 0))
            for (leaves, target), cost in exits.items():
                stays = target in places and target != first
                reached, key = (arrived, target) if stays else (leaving, (leaves, target))
                reached[key] = max(arrived[place] + cost, reached.get(key, 0))
        return leaving, owed

    def loop(self, here, loop, around, without):
        """What a loop takes from its beginning to each edge that leaves it, and what is to be added."""
        name, unrolled = here.names[loop.header]
        turns, scope, word = self.often(name, around)
        turns = -(-turns // unrolled)
        leaving, owed = self.ways(here, loop.header, loop.places, loop.inner, around + (name,), without)
        turn = self.back(loop, leaving)
        added = sum(owed.pop(key) for key in list(owed) if key[0] == name)
        for times, other, shared, places in self.gone_through(here, loop, around)[:1]:
            less, _ = self.ways(here, loop.header, loop.places - places, loop.inner, around + (name,), without)
            # where each turn goes through it, nothing is gained
            if any(target == loop.header for _, target in less):
                # a turn that is several may go through it more than once, and costs no more than the longest
                owed[other, shared] = max(min(times, turns) * (turn - self.back(loop, less)), owed.get((other, shared), 0))
                turn = self.back(loop, less)
        if scope:
            owed[scope, word] = max(turns * turn, owed.get((scope, word), 0))
        else:
            added += turns * turn
        return {edge: cost + added for edge, cost in leaving.items() if edge[1] != loop.header}, owed

    @staticmethod
    def back(loop, leaving):
        """What the longest turn takes."""
        return max((cost for (_, target), cost in leaving.items() if target == loop.header), default=0)

    def gone_through(self, here, loop, around):
        """Of the functions that were taken into a loop, and of which it is counted how often they are gone through: how often, and the
        places of their blocks there."""
        own, functions, found = loop.places - {place for inner in loop.inner for place in inner.places}, {}, []
        for place in own:
            blocks = [self.sources.functions(each) for each in here.blocks[place].instructions if each.sources]
            for function in set.intersection(*blocks) if blocks else ():
                functions.setdefault(function, set()).add(place)
        for function, places in sorted(functions.items()):
            times, scope, word = self.often(function + "()", around)
            if scope and loop.header not in places:
                found.append((times, scope, word, places))
        return found
