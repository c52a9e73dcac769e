"""What numbers a function hands to those that it calls, where these are constants: then a loop there turns so often as they say."""
import re

ARGUMENTS = ("r0", "r1", "r2", "r3")
# what a function that is called may leave otherwise
LOST = (*ARGUMENTS, "r12", "lr")
# what writes to no register
WRITE_NOTHING = frozenset("b bx cbz cbnz cmn cmp it nop push str strb strd strh stm stmdb stmia tbb tbh teq tst".split())
# what may write to two registers or more
WRITE_MORE = frozenset("bl ldm ldmdb ldmia ldrd pop smlal smull umlal umull".split())


def after(instruction, known, numbers):
    """What registers, and places of the stack where registers are kept, hold behind an instruction, by what they held before it, and by
    the numbers that stand behind the code under labels."""
    known, name, operands = dict(known), instruction.name, instruction.operands
    # the register that says where is written too
    if "!" in instruction.line or len(operands) > 2 and operands[1].startswith("["):
        return {}
    if operands[:1] == ["sp"] or name in ("push", "pop"):
        known = {place: number for place, number in known.items() if not place.startswith("[")}
    if name in WRITE_MORE:
        lost = LOST if name == "bl" else re.findall(r"\w+", instruction.line.partition("\t")[2])
        return {place: number for place, number in known.items() if place not in lost}
    if instruction.kept:
        if name in ("str", "ldr"):
            source, target = operands if name == "str" else reversed(operands)
            put(known, target, None if instruction.conditional else known.get(source))
            return known
        # two registers, kept or taken back at once
        return {}
    if name in WRITE_NOTHING:
        return known
    number = None
    if name in ("mov", "movw", "ldr") and not instruction.conditional and len(operands) == 2:
        given = numbers.get(operands[1]) if name == "ldr" else known.get(operands[1])
        number = int(operands[1][1:]) if re.fullmatch(r"#\d+", operands[1]) else given
    put(known, operands[0], number)
    return known


def put(known, place, number):
    known.pop(place, None)
    if number is not None:
        known[place] = number


def handed(blocks, order, numbers):
    """The constants that are handed at each call, by the instruction and the registers."""
    before, found, waiting = {order[0]: {}}, {}, [order[0]]
    while waiting:
        place = waiting.pop()
        known = before[place]
        for instruction in blocks[place].instructions:
            if instruction.called:
                found[instruction] = {register: known[register] for register in ARGUMENTS if register in known}
            known = after(instruction, known, numbers)
        for target, _ in blocks[place].edges:
            if target is None:
                continue
            shared = known if target not in before else {key: number for key, number in before[target].items() if known.get(key) == number}
            if target not in before or shared != before[target]:
                before[target] = shared
                waiting.append(target)
    return found
