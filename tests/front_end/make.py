"""Random questions and damaged strings, as bytes and from the format alone."""

LIKELY = [0x00, 0x01, 0x02, 0x03, 0x0B, 0x0C, 0x0D, 0x10, 0x11, 0x12, 0x13, 0x1F, 0x20, 0x21, 0x22, 0x23, 0x30, 0x31, 0x32, 0x33, 0x38, 0x39, 0x3A, 0x3B,
          0x3F, 0x40, 0xFF]
# The commands of clauses in the first and in the second system, and how many terms each has.
CLAUSES = [(0x10, 0x20, 3), (0x11, 0x21, 3), (0x12, 0x22, 2), (0x13, 0x23, 2), (0x30, 0x38, 1), (0x31, 0x39, 1), (0x32, 0x3A, 2)]


def random_leaves(random, tallest=5):
    """Leaves of a tree of any height up to a tallest, unfolded to that."""
    height = random.randrange(tallest + 1)
    bits = random.getrandbits(1 << height)
    width = (1 << tallest) >> height
    return sum(((1 << width) - 1) << (width * leaf) for leaf in range(1 << height) if bits >> leaf & 1)


def random_question(random):
    """The bytes of an accepted question."""
    kind = random.randrange(2)
    free = random.choice([0, 1, 2, 3, 5, 12])
    own = random.randrange(min(4, 13 - free)) if kind else 0
    constants = random.choice([0, 1, 2, 3, 4, 32])
    string = [0x01, kind, free, own]
    for _ in range(constants):
        string += [0x03, *random_leaves(random).to_bytes(4, "little")]
    for _ in range(random.choice([0, 1, 2, 4, 8, 31])):
        second = random.randrange(2) if kind else 0
        terms = list(range(free + own if second else free)) + [0x20 + number for number in range(constants)]
        if terms:
            *commands, count = random.choice(CLAUSES)
            string += [commands[second], *random.choices(terms, k=count)]
    return bytes(string + [0x00])


def damaged(random, string, likely=LIKELY):
    """A string after one to three changes, which put in likely bytes; some are taken from strings at a limit."""
    string = bytearray(string)
    for _ in range(random.randrange(1, 4)):
        at = random.randrange(len(string) + 1)
        byte = random.choice(likely)
        change = random.randrange(6)
        if change == 0:
            string[at:] = b""
        elif change == 1:
            string[at:at] = bytes([byte])
        elif change == 2:
            string[at:at + 1] = b""
        elif change == 3:
            string += bytes([byte])
        else:
            string[at:at + 1] = bytes([byte])
    return bytes(string)
