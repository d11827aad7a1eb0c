"""Tests of byte strings that are no question."""

from random import Random

import cases
import make
from front_end.question import MEANINGS, Refusal, read_question
from harness import check, command, program, program_says


def front_end_says(string):
    """What the front end's own reader says of a byte string: the program's line if it is refused, else only that it is answered."""
    try:
        read_question(string)
        return "answer"
    except Refusal as refusal:
        return f"refused {refusal.number} at {refusal.place}"


def test_refusals():
    numbers = set()
    for hexadecimal, refusal, here, around in cases.REFUSED:
        number = int(refusal.split()[0])
        numbers.add(number)
        due = f"refused {refusal}\nmeaning: {MEANINGS[number]}\nhere:    {here}\nbytes:   {around}\n"
        name = hexadecimal[:40]
        check(f"explain {name}", command("explain", "--hex", "-", given=hexadecimal.encode()), (1, due.encode(), ""))
        check(f"the program on {name}", program(bytes.fromhex(hexadecimal)), [f"refused {refusal}"])
    check("each refusal is among them", numbers, set(range(1, 11)))


def test_damaged():
    """The front end's reader and the program refuse the same strings, with the same numbers and places."""
    random = Random(7)
    limits = [bytes.fromhex(refused[0]) for refused in cases.REFUSED if refused[1][0] in "67"]
    seen = set()
    for _ in range(700):
        whole = random.choice(limits) if random.randrange(8) == 0 else make.random_question(random)
        string = make.damaged(random, whole)
        said = program_says(string)
        seen.add(said.split(" at ")[0])
        check(f"damaged {string.hex(' ')}", front_end_says(string), said)
    check("all refusals were seen", seen, {"answer"} | {f"refused {number}" for number in range(1, 11)})
