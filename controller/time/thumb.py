"""The functions of a compiler's text for ARM: their instructions, where these lead, what they access and which functions they come from."""
import re


class Refused(Exception):
    pass


CONDITIONS = "eq|ne|cs|cc|hs|lo|mi|pl|vs|vc|hi|ls|ge|lt|gt|le"
# what is done in one cycle, where it writes no program counter
PLAIN = frozenset(
    "adc add addw adr and asr bfc bfi bic clz cmn cmp eor lsl lsr mov movt movw mvn nop orn orr rbit rev rev16 revsh ror rrx rsb sbc sbfx"
    " sub subw sxtb sxth teq tst ubfx uxtb uxth".split()
)
ONE_ACCESS = frozenset("ldr ldrb ldrh ldrsb ldrsh str strb strh".split())
TWO_ACCESSES = frozenset("ldrd strd".split())
MANY_ACCESSES = frozenset("ldm ldmdb ldmia stm stmdb stmia push pop".split())
LONG_PRODUCTS = frozenset("umull umlal smull smlal mla mls".split())
DIVISIONS = frozenset("udiv sdiv".split())
# what decides of the instructions after it: each counts whether it is done or not
CHOOSES = re.compile("it[te]{0,3}")
JUMPS = frozenset("b bl bx cbz cbnz tbb tbh".split())
NAMES = PLAIN | ONE_ACCESS | TWO_ACCESSES | MANY_ACCESSES | LONG_PRODUCTS | DIVISIONS | JUMPS | {"mul"}


class Instruction:
    """What it is called, whether it depends on a condition, its operands; the functions that it comes from, the innermost first, and how
    many turns of a loop there the compiler made one turn of."""

    def __init__(self, line, sources, unrolled):
        mnemonic, _, rest = line.partition("\t")
        self.line, self.sources, self.unrolled, self.kept = line, sources, unrolled, False
        self.operands = [part.strip() for part in re.split(r",(?![^{\[]*[}\]])", rest)] if rest else []
        self.name, self.conditional = name_of(mnemonic, line)

    @property
    def accesses(self):
        if self.name in MANY_ACCESSES:
            listed = re.search(r"\{(.*)\}", self.line).group(1)
            if "-" in listed:
                raise Refused(f"a list of registers that is not written out: {self.line}")
            return listed.count(",") + 1
        return 2 if self.name in TWO_ACCESSES else 1 if self.name in ONE_ACCESS or self.name in ("tbb", "tbh") else 0

    @property
    def split_accesses(self):
        """How many further accesses are made where the bytes are not aligned: the processor splits a word into up to three accesses."""
        if self.name not in ONE_ACCESS or self.name[-1] == "b" or re.search(r"\[(?:sp|pc|\.L)", self.line) or ".L" in self.line:
            return 0
        return 1 if self.name[-1] == "h" else 2

    @property
    def writes_counter(self):
        """Whether it jumps by a value, from a register, the stack or a table."""
        if self.name in ("tbb", "tbh", "bx"):
            return True
        if self.name in ("pop", "ldm", "ldmia"):
            return re.search(r"\bpc\b", self.line.partition("{")[2]) is not None
        return self.name not in ("push", "stm", "str", "cmp") and self.operands[:1] == ["pc"]

    @property
    def leaves(self):
        """Whether what stands behind it is not reached from it."""
        return not self.conditional and (self.writes_counter or self.name == "b" or self.jumps_far)

    @property
    def jumps_far(self):
        """A Cortex-M0 jumps by a call where a label is far."""
        return self.name == "bl" and self.operands[0].startswith(".L")

    @property
    def label(self):
        """The label in its function to which it may jump."""
        if self.name in ("cbz", "cbnz", "b", "bl") and self.operands[-1].startswith(".L"):
            return self.operands[-1]
        return None

    @property
    def called(self):
        """The function that it calls, or leaves for."""
        return self.operands[0].strip('"') if self.name in ("b", "bl") and not self.label else None

    @property
    def returns(self):
        return self.writes_counter and (self.name in ("pop", "ldm", "ldmia") or self.name == "bx" and self.operands == ["lr"])

    @property
    def is_way_out(self):
        """Whether it is a return, or chooses whether one is made: in a loop these are of the function around it."""
        return self.returns or self.name == "it"


def name_of(mnemonic, line):
    """The name without what says of its width, its flags and its condition, and whether it has a condition."""
    bare = re.sub(r"\.[nw]$", "", mnemonic)
    if CHOOSES.fullmatch(bare):
        return "it", False
    for given, conditional in (bare, False), (re.sub(f"(?:{CONDITIONS})$", "", bare), True):
        if given in NAMES:
            return given, conditional
        # that it sets flags
        if given[-1:] == "s" and given[:-1] in PLAIN | {"mul"}:
            return given[:-1], conditional
    raise Refused(f"an instruction that is not known: {line}")


def unrolled_by(discriminator):
    """How many turns were made one, as the compiler notes it beside a line, for who counts how often a line is carried out: the second of
    three numbers, of which each begins with a bit that says whether it is there (DILocation::decodeDiscriminator)."""
    rest = discriminator >> 1 if discriminator & 1 else discriminator >> (14 if discriminator & 0x40 else 7)
    if rest & 1:
        return 1
    rest >>= 1
    return max(1, rest >> 1 & 0xFE0 | rest & 0x1F if rest & 0x20 else rest & 0x1F)


class Function:
    """Its instructions, at what places its labels stand among them, the labels that its tables of jumps name, the numbers that stand behind
    its code under labels, the places where by the compiler's remarks its loops begin, and what in it cannot be read: a function that no call
    comes to may have that, as a trap where the compiler knows that it is never come to."""

    def __init__(self, name):
        self.name, self.instructions, self.labels, self.tables, self.numbers, self.remarked = name, [], {}, {}, {}, set()
        self.unread = None


def functions_of(path):
    """The functions of a text. Of a text with lines (lines.py) each instruction has the functions that it comes from, by their numbers."""
    functions, function, source, data, number = {}, None, ((), 1), None, None
    for line in open(path, encoding="utf-8"):
        kind = re.match(r"\s+\.type\s+(.*),%function", line)
        if kind:
            name = kind.group(1).strip('"')
            function = functions[name] = Function(name)
            source, data = ((), 1), None
        elif re.match(r"\.Lfunc_end", line):
            function = None
        if function is None:
            continue
        if "Loop Header: Depth=" in line:
            function.remarked.add(len(function.instructions))
        located = re.match(r"\s+\.loc\s[^@]*@(.*)", line)
        label = re.match(r'(?:"([^"]+)"|([\w.$]+)):', line)
        keeps = re.search(r"@ \d+-byte (?:Folded )?(?:Spill|Reload)", line) is not None
        line = re.sub(r"\s*@.*", "", line).strip()
        aligned = re.match(r"\.p2align\t(\d)", line)
        if located:
            found = tuple(re.findall(r"([\w./]*:\d+)(?::\d+)?", located.group(1)))
            noted = re.search(r"discriminator (\d+)", located.group(0))
            # line 0 is that of no place
            source = (() if any(place.endswith(":0") for place in found) else found, unrolled_by(int(noted.group(1)) if noted else 0))
        elif label:
            place = len(function.instructions)
            # a table of places to jump to, or numbers; else an instruction follows
            data = None
            if label.group(2) and label.group(2).startswith(".LJTI"):
                data = function.tables.setdefault(place, [])
            elif label.group(2) and label.group(2).startswith(".LCPI"):
                data, number = [], label.group(2)
            else:
                function.labels[label.group(1) or label.group(2)] = place
        elif re.match(r"\.(?:inst|byte|short|long|hword|word|space|zero|asci[iz])\b", line):
            if data is None:
                function.unread = function.unread or f"{function.name} has data among its instructions: {line}"
                continue
            data.extend(re.findall(r"\.LBB\w+", line))
            if number and re.fullmatch(r"\.long\t\d+", line):
                function.numbers.setdefault(number, int(line.partition("\t")[2]))
            number = None
        elif aligned and function.instructions and data is None and not function.instructions[-1].leaves:
            # what fills up to a place that is aligned is carried out
            function.instructions.extend(Instruction("nop", (), 1) for _ in range(2 ** int(aligned.group(1)) // 2 - 1))
        elif line and not line.startswith("."):
            function.instructions.append(Instruction(line, *source))
            # a register, in a place of the stack that nothing else reads or writes
            function.instructions[-1].kept = keeps
    return functions
