"""Tests of what is written down: the examples, docs/FORMAT.md, README.md."""

import json
import re
from itertools import product

import cases
import judging
from commands import KEYS
from front_end import judge
from front_end.answer import MEANINGS
from front_end.broken import WAYS
from front_end.files import MOST_BYTES
from front_end.lines import HIDING
from front_end.question import (CLAUSES, MEANINGS as REFUSALS, MOST_CONSTANTS, MOST_DISEQUATIONS, MOST_POSITIVE,
                                MOST_VARIABLES, OPERANDS, read_question)
from front_end.text import RESERVED, read_text
from front_end.trees import TALLEST, TALLEST_ROW, read_tree, write_tree
from harness import TOP, check, command, judging_program, library_judges, library_reads, program
from texts import constant_question


def test_examples():
    """Each file of examples/ says in its lines '#> ' what is to be printed."""
    files = sorted((TOP / "examples").glob("*.shares"))
    check("the worked questions are there", sorted(set(cases.WORKED) - {file.stem for file in files}), [])
    for file in files:
        due = "".join(line[3:] for line in file.read_text().splitlines(True) if line.startswith("#> "))
        check(f"examples/{file.name} says its answer", bool(due), True)
        check(f"examples/{file.name}", command("ask", str(file)), (int(due.startswith("answer no\n")), due.encode(), ""))


def tables(markdown):
    """The rows of each table, as dicts from the heads of their columns."""
    heads = None
    for line in markdown.splitlines():
        if not line.startswith("|"):
            heads = None
            continue
        cells = [cell.strip() for cell in line.strip().strip("|").split("|")]
        if heads is None:
            heads = cells
        elif not re.fullmatch(r"-+", cells[0]):
            yield dict(zip(heads, cells))


def example(cell, repeated):
    """An example, with what is to be repeated written out."""
    return "" if cell == "no byte" else re.sub(repeated, lambda found: found[1] * int(found[2]), cell.strip("`"))


def example_bytes(cell):
    """The bytes of an example: hexadecimal, with (..)×N for N times over."""
    return bytes.fromhex(example(cell, r"\(([0-9A-F ]+)\)×(\d+)"))


def library_gives(cell):
    """What the library's call gives for the tree text of an example, with [..]×N for N times over."""
    return library_reads([example(cell, r"\[(.+?)\]×(\d+)").encode()])[0]


def packed(lines):
    """The number that asking gives where the program prints these lines."""
    words = [line.split() for line in lines]
    if words[0][0] == "refused":
        return int(words[0][1]) << 8 | int(words[0][3]) << 16
    said = {word[0]: word[1:] for word in words}
    height, reason = said.get("height", ["0"]), said.get("reason", ["0"])
    disequation = reason[1] if len(reason) > 1 else "0"
    return (1 if said["answer"] == ["yes"] else 2) | int(height[0]) << 32 | int(reason[0]) << 40 | int(disequation) << 48


def test_format_commands():
    """The commands that docs/FORMAT.md has: their operands, which are of the second system, which are disequations."""
    markdown = (TOP / "docs" / "FORMAT.md").read_text()
    operands, second = {}, set()
    for row in tables(markdown):
        found = re.findall(r"`([0-9A-F]{2})([ a-z]*)`( and four bytes)?", row["command"]) if "where" in row else []
        operands.update({int(byte, 16): 4 if four else len(names.split()) for byte, names, four in found})
        second |= {int(byte, 16) for byte, *_ in found if row["meaning"].startswith("second system")}
    check("FORMAT.md has the commands", operands, OPERANDS)
    check("FORMAT.md has those of the second system", second, {command for command, sort in CLAUSES.items() if sort.second})
    sentence = re.search(r"may alternate\.(.*?)are the disequations", markdown, re.S)[1]
    disequations = {command for command, sort in CLAUSES.items() if sort.disequation}
    check("FORMAT.md has the disequations", {int(byte, 16) for byte in re.findall(r"`(..)`", sentence)}, disequations)


def test_format():
    """Every example of docs/FORMAT.md is run."""
    markdown = (TOP / "docs" / "FORMAT.md").read_text()
    text = "".join(line[4:] for line in markdown.splitlines(True) if line.startswith("    "))
    commands = [f"{clause[0]:02X}" for clause in read_text(text).question.clauses]
    check("FORMAT.md, the text says its commands", re.findall(r"# ([0-9A-F]{2})\b", text), commands)
    seen = []
    for row in tables(markdown):
        name = f"FORMAT.md, {' | '.join(row.values())}"
        if "prints" in row:
            due, string = [line.strip("`") for line in row["prints"].split("<br>")], example_bytes(row["bytes"])
            check(name, program(string), due)
        if "SPEC" in row:
            seen += [row["SPEC"]]
        elif "prints" in row and "command" in row:
            check(f"{name}: command", row["command"] in [f"`{clause[0]:02X}`" for clause in read_question(string).clauses], True)
            seen += [row["command"]]
        elif "prints" in row:
            if row["number"].startswith("`0x"):
                check(f"{name}: number", int(row["number"].strip("`"), 16), packed(due))
            else:
                check(f"{name}: refusal", row["number"], due[0].split()[1])
            seen += [due[-1].split(" at ")[0]]
        elif "tree text" in row:
            leaves = int(row["constant"].strip("`"), 16)
            check(f"{name}: bytes", leaves.to_bytes(4, "little"), example_bytes(row["bytes"]))
            check(name, program(constant_question(leaves)), ["answer yes", f"height {row['height']}", "v00 " + row["tree text"].strip("`")])
            seen += ["tree"]
        elif "zimorgal_join(a, b)" in row:
            a, b, c = (int(cell.strip("`"), 16) for cell in row.values())
            defined = c < 1 << 32
            constants = b"".join(b"\x03" + leaves.to_bytes(4, "little") for leaves in (a, b, c if defined else 0))
            question = bytes([0x01, 0, 1, 0]) + constants + bytes([0x10, 0x20, 0x21, 0x22 if defined else 0x00, 0])
            check(name, program(question)[0], "answer yes" if defined else "answer no")
            seen += ["join"]
        elif "zimorgal_height(a)" in row:
            check(name, program(constant_question(int(row["a"].strip("`"), 16)))[1], f"height {row['zimorgal_height(a)']}")
            seen += [f"height {row['zimorgal_height(a)']}"]
    due = {"answer no", "v00 (o*)", "reason 0", "reason 1", "reason 2", "reason 3 1", "tree", "join"} | {f"height {height}" for height in range(6)}
    due |= {f"4.5.{sentence}" for sentence in range(1, 6)} | {f"`{command}`" for command in ("30", "31", "32", "38", "39", "3A")}
    check("FORMAT.md has an example of everything", due | {f"refused {number}" for number in range(1, 11)}, set(seen))


def test_format_constants():
    """The examples of tree text in docs/FORMAT.md are what the library's call gives."""
    columns = {"tree text": "constant", "text": "zimorgal_constant", "without the first": "zimorgal_constant then"}
    seen = set()
    for row in tables((TOP / "docs" / "FORMAT.md").read_text()):
        given = {due: library_gives(row[text]) for text, due in columns.items() if text in row and due in row}
        for due, number in given.items():
            check(f"FORMAT.md, {' | '.join(row.values())}: {due}", number, int(row[due].strip("`"), 16))
        if "zimorgal_constant" in row:
            refusals = " before ".join(str(number >> 32) for number in given.values())
            check(f"FORMAT.md, {' | '.join(row.values())}: number", row["number"], refusals)
            seen.add(refusals)
    check("FORMAT.md has each refusal of a text and each order of two", seen, {"15", "16", "17", "15 before 16", "15 before 17", "16 before 17"})


def test_format_joins():
    """The joins in docs/FORMAT.md: which bits the numbers share, and what 'let' gives."""
    rows = list(tables((TOP / "docs" / "FORMAT.md").read_text()))
    joins = [[int(cell.strip("`"), 16) for cell in row.values()] for row in rows if "zimorgal_join(a, b)" in row]
    check("FORMAT.md says which bits are set in both numbers", [a & b for a, b, _ in joins], [0] * 6 + [1 << 0, 1 << 16, 1 << 31, (1 << 32) - 1])
    lets = [[re.findall(r"`(.*?)`", cell) for cell in row.values()] for row in rows if "lines" in row]
    for lines, [due] in lets:
        status, out, errors = command("ask", "--bytes", "-", given="\n".join(["satisfiable", *lines]).encode())
        found = errors[len("-:"):-len("\n")] if status else write_tree(read_question(out).constants[-1])
        check(f"FORMAT.md, {lines}", found, due)
    check("FORMAT.md has joins in 'let' and errors in them", [":" in due for _, [due] in lets], [False] * 3 + [True] * 3)


def example_rows(cell):
    """The rows of an example: zero but for those that are written, or so many bytes."""
    if cell.endswith(" bytes"):
        return bytes(int(cell.split()[0].replace(",", "")))
    rows = {int(number): tree for number, tree in re.findall(r"`v(\d\d) ([(o*)]+)`", cell)}
    return b"".join(read_tree(rows.get(number, "o"), 10).to_bytes(128, "little") for number in range(12))


def broken_command(question, number):
    """The command of the broken clause, and the way, where judging a question gives that number."""
    first = [clause[0] for clause in read_question(question).clauses if not CLAUSES[clause[0]].second]
    return f"{first[number >> 32 & 0xFF]:02X}", number >> 40 & 0xFF


def test_format_judging():
    """The examples of judging in docs/FORMAT.md are what the library's call and the judging program give; the meanings, the keys, and rows as text."""
    markdown = (TOP / "docs" / "FORMAT.md").read_text()
    rows, seen, ways = list(tables(markdown)), set(), set()
    for row in rows:
        if "zimorgal_judge" not in row:
            continue
        name, question, given = f"FORMAT.md, {' | '.join(row.values())}", example_bytes(row["bytes"]), example_rows(row["rows"])
        number = int(row["zimorgal_judge"].strip("`"), 16)
        check(name, library_judges([(question, given)]), [number])
        if row["judging prints"] != "does not occur":
            check(f"{name}: the program", judging_program(given + question), row["judging prints"].strip("`"))
            check(f"{name}: number", judging.packed(row["judging prints"].strip("`")), number)
        seen.add((number & 0xFF, number >> 8 & 0xFF))
        ways |= {broken_command(question, number)} if number & 0xFF == 2 else set()
    due = {("10", 1), ("10", 2), ("10", 3), ("12", 2), ("12", 3), ("30", 3), ("32", 1), ("11", 0), ("13", 0), ("31", 0)}
    check("FORMAT.md has each way of each clause, and each disequation", ways, due)
    check("FORMAT.md has each judgement", seen, {(1, 0), (2, 0), (3, 0), (0, 8), (0, 18), (0, 19)})
    words = {(kind, row["judgement"]): row[f"kind {kind}"] for row in rows for kind in (0, 1) if "judgement" in row}
    check("FORMAT.md has the meanings of judgements", words, {**judge.MEANINGS, (0, "extends"): "does not occur"})
    check("FORMAT.md has the keys of --judge --json", [row["key with --judge"].strip("`") for row in rows if "key with --judge" in row], judging.KEYS)


def reads_as(row, command):
    """The outcome of a clause's test for all values of its terms, by what docs/FORMAT.md says of its parts and sum, and of the four ways."""
    terms = command.split()[1:]
    for values in product((0, 1), repeat=len(terms)):
        a, b, whole = ({"empty": 0, "full": 1, **dict(zip(terms, values))}.get(row[head]) for head in ("part", "other part", "sum"))
        full = a + b
        way = "overlap" if full == 2 else "holds" if whole in (full, None) else "surplus" if full else "shortfall"
        yield values, way


def test_format_ways():
    """How clauses fail, in docs/FORMAT.md: what is said there of each clause is what the library does with all values, and what ask says."""
    rows = list(tables((TOP / "docs" / "FORMAT.md").read_text()))
    ways = {row["way"]: (row["number"], row["at the leaf"]) for row in rows if "at the leaf" in row}
    check("FORMAT.md has the ways in order", list(ways), ["holds", *judging.JOINS])
    check("with their numbers", [number for number, _ in ways.values()], ["0", "1", "2", "3"])
    check("and what they mean for a join", {way: meaning for way, (_, meaning) in ways.items() if way != "holds"}, judging.JOINS)
    seen = {}
    for row in rows:
        if "positive clause" not in row:
            continue
        clause = row["positive clause"].strip("`")
        command, found = int(clause.split()[0], 16), set()
        for values, way in reads_as(row, clause):
            string = bytes([1, 0, len(values), 0, command, *range(len(values)), 0])
            given = b"".join(bytes([255 * value] * 128) for value in values).ljust(1536, b"\0")
            due = "accepted" if way == "holds" else f"broken 0 {way} at 0"
            check(f"FORMAT.md, {clause} with {values}", (judging_program(given + string), library_judges([(string, given)])), (due, [judging.packed(due)]))
            found.add(way)
        meanings = {way: row[way] for way in judging.JOINS if row[way] != "does not occur"}
        check(f"FORMAT.md, the ways of {clause}", set(meanings) | {"holds"}, found)
        seen[CLAUSES[command].words] = meanings
    check("FORMAT.md has what each way means", {(words, way): meaning for words, meanings in seen.items() for way, meaning in meanings.items()}, WAYS)


def test_format_broken():
    """What docs/FORMAT.md says of a broken clause, in words."""
    markdown = (TOP / "docs" / "FORMAT.md").read_text()
    head = re.findall(r"`(.*?)`", re.search(r"for a FILE with the lines (.*?) before the clause", markdown)[1])
    examples = [[re.findall(r"`(.*?)`", cell) for cell in row.values()] for row in tables(markdown) if "broken clause" in row]
    for [clause], rows, due in examples:
        others = [f"{name} = o" for name in head[1].split()[1:] if not any(row.startswith(name) for row in rows)]
        status, out, errors = judging.judged("\n".join([*head, clause]), "\n".join(rows + others))
        check(f"FORMAT.md, {rows} for {clause}", (status, out.decode().splitlines()[1:], errors), (1, due, ""))
    said = "".join(line for *_, due in examples for line in due)
    check("FORMAT.md has each way of each clause in words", [meaning for meaning in WAYS.values() if f"({meaning})" not in said], [])
    check("and each disequation", said.count("at every leaf: "), 3)


def test_format_rows():
    """Rows as text in docs/FORMAT.md: the form, and what is said of each example."""
    markdown = (TOP / "docs" / "FORMAT.md").read_text()
    question = "".join(line[4:] for line in markdown.splitlines(True) if line.startswith("    "))
    form = re.search(r"```\n(.*?)```", markdown, re.S)[1]
    check("FORMAT.md, the form of rows", judging.judged(question, form, "--plain"), (1, b"extends\n", ""))
    lines = re.findall(r"`(.*?)`", re.search(r"for a FILE with the lines (.*?):\n", markdown)[1])
    examples = [[re.findall(r"`(.*?)`", cell) for cell in row.values()] for row in tables(markdown) if "rows in ROWS" in row]
    for rows, due in examples:
        status, out, errors = judging.judged("\n".join(lines), "\n".join(rows))
        said = "".join(line + "\n" for line in due)
        check(f"FORMAT.md, {rows}", (out.decode() or errors.removeprefix("-:"), status), (said, 2 if said[0].isdigit() else 1))
    check("FORMAT.md has rows and errors in them", [due[0][0].isdigit() for _, due in examples], [False] * 2 + [True] * 7)


def test_format_reasons():
    """The reasons in words that docs/FORMAT.md has, beside the numbers."""
    markdown = (TOP / "docs" / "FORMAT.md").read_text()
    head = re.findall(r"`(.*?)`", re.search(r"for a FILE with the lines (.*?); a, b and x", markdown)[1])
    rows = [row.values() for row in tables(markdown) if "last line" in row]
    examples = [[re.findall(r"`(.*?)`", cell) for cell in row] for row in rows]
    for clauses, number, last in examples:
        text = "\n".join(head + clauses).encode()
        said = [command("ask", *options, "-", given=text)[1].decode() for options in (["--plain"], [])]
        check(f"FORMAT.md, {clauses}", [lines.splitlines()[-1:] for lines in said], [number, last])
    due = ["reason 0", "reason 1", "reason 2", "reason 2", "reason 3 0", "reason 3 1"]
    check("FORMAT.md has each reason in words", [number for _, [number], _ in examples], due)


def test_format_text():
    """What docs/FORMAT.md says of questions as text: joins inside, statuses, reserved words, meanings, the object of --json."""
    markdown = (TOP / "docs" / "FORMAT.md").read_text()
    check("FORMAT.md lists the reserved words", " ".join(f"reserved words: {RESERVED}.".split()) in " ".join(markdown.split()), True)
    rows = list(tables(markdown))
    joins = [(row["text"], row["in the format"]) for row in rows if "in the format" in row]
    check("FORMAT.md has joins inside", len(joins), 4)
    for text, clauses in joins:
        lines = [re.findall(r"`(.*?)`", cell) for cell in (text, clauses)]
        texts = ["\n".join(["satisfiable", f"free {names}", *part]) for names, part in zip(("a b c d", "a b c d t"), lines)]
        check(f"FORMAT.md, {text}", *(command("ask", "--bytes", "-", given=one.encode()) for one in texts))
    statuses = [row["status"] for row in rows if "status" in row]
    check("FORMAT.md has the statuses of the help", statuses, [line.split()[0] for line in cases.STATUSES])
    words = {(int(row["kind"]), row["verdict"], int(row["reason"]) if row["kind"] == "1" else None): row["meaning"] for row in rows if "height given" in row}
    check("FORMAT.md has the meanings that --json gives", words, MEANINGS)
    check("FORMAT.md has the keys of --json", [row["key"].strip("`") for row in rows if "key" in row], KEYS)
    example = json.loads(re.search(r"```json\n(.*?)```", markdown, re.S)[1])
    said = json.loads(command("ask", "--json", str(TOP / example["file"]))[1])
    check("FORMAT.md has the object of its example", example, {**said, "file": example["file"]})
    check("with the keys in this order", list(example), KEYS)


def test_format_turning():
    """The characters that turn the order of what is shown are those that docs/FORMAT.md names."""
    said = re.search(r"characters that turn the order are (.*)\.", (TOP / "docs" / "FORMAT.md").read_text())[1]
    ranges = re.findall(r"U\+(\w{4})(?: to U\+(\w{4}))?", said)
    named = [number for first, last in ranges for number in range(int(first, 16), int(last or first, 16) + 1)]
    signs = next(signs for signs, what in HIDING.items() if "turns the order" in what)
    refused = [number for number in range(0x3000) if re.match(f"[{signs}]", chr(number))]
    check("FORMAT.md names these characters", refused, named)


def test_format_later():
    """What docs/FORMAT.md says of later refusal numbers: from the next one on, and which numbers have a place."""
    markdown = (TOP / "docs" / "FORMAT.md").read_text()
    told = [row["number"] for row in tables(markdown) if "number" in row and "meaning" in row]
    numbers = {int(number) for number in told if number.isdecimal() and number != "0"}
    last = max(numbers)
    check("FORMAT.md has all numbers", numbers, set(range(1, last + 1)))
    starts = re.findall(r"New numbers start at (\d+)\.", markdown)
    check("FORMAT.md says where new numbers start", starts, [str(last + 1)])
    check("FORMAT.md says nothing of all later numbers", "all later numbers" in markdown, False)
    check("FORMAT.md says which have a place", f"only 1 to {max(REFUSALS)} have one" in markdown, True)


def test_readme_limits():
    """README.md states the limits, as the front end has them."""
    readme = " ".join((TOP / "README.md").read_text().split())
    limits = [f"{MOST_VARIABLES} variables", f"{MOST_CONSTANTS} constants", f"{MOST_POSITIVE} positive clauses",
              f"{MOST_DISEQUATIONS} disequations", f"{1 << TALLEST} leaves", f"height {TALLEST}",
              f"height {TALLEST_ROW}", f"{MOST_BYTES:,} bytes", "925 bytes"]
    section = readme.split("## Limits")[-1].split(" ## ")[0]
    check("README.md states the limits", [limit for limit in limits if limit not in section], [])


def test_readme():
    """The question and the pictures that README.md shows are those of the example."""
    readme = (TOP / "README.md").read_text()
    example = [line for line in (TOP / "examples" / "third_part.shares").read_text().splitlines() if not line.startswith("#")]
    check("README.md has the example", "\n".join(f"    {line}" for line in example) in readme, True)
