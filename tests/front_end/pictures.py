"""Tests of pictures: of every kind of answer and of judgement, of low trees and of tall ones, of wide ones that are
drawn coarser, of long names, the leaf that is marked, and the one that is stored."""

import json
import re
from itertools import combinations
from random import Random
from xml.etree import ElementTree

from failing import FAILING, INSIDE
from front_end.trees import write_tree
from harness import TOP, check, command, process
from judging import ACCEPTED, EQUALS, EXTENDS, JOINS, TALL as TALLEST, WITHS, balanced, fails, judged, never

SVG = "{http://www.w3.org/2000/svg}"
FULL, EMPTY, MIXED = "#1f3a5f", "#ffffff", "#c3c9d2"
WIDEST = 2000  # of a picture
VARIABLES = [f"v{number}" for number in range(12)]
TALL = "\n".join(["satisfiable", f"free {' '.join(VARIABLES)}", "let low = (((((*o)o)o)o)o)", "v0 join v1 is v2", "v2 join v3 is v4",
                  *(f"{name} is not o" for name in VARIABLES[:11]), *(f"{name} is not *" for name in VARIABLES),
                  *(f"v{number} is not v{number + 1}" for number in range(8))])
QUESTIONS = [
    ("no variable", "satisfiable", "yes: this is a solution; there is no variable to be drawn"),
    ("no variable, and no extension", "entails\nthen\n* is o",
     "no: this solution of the first system cannot meet '* is o' (line 3); there is no variable to be drawn"),
    ("not satisfiable", "satisfiable\nfree a\na join a is *", "no: there is no solution"),
    ("entailed", "entails\nfree a\na is *\nthen\na is not o", "yes: every solution of the first system extends to the second"),
    ("nothing to extend", "entails\n* is o\nthen", "yes: the first system has no solution"),
    ("reason 2", "entails\nfree a\nthen\na is *",
     "no: this solution of the first system cannot meet 'a is *' (line 4)"),
    ("reason 2, of several", "entails\nfree a\nthen\na is *\na with o",
     "no: this solution of the first system cannot meet the positive clauses of the second (lines 4 and 5)"),
    ("reason 3", "entails\nfree a\n\nthen\na is  not o",
     "no: this solution of the first system cannot have 'a is not o' (line 5)"),
    ("reason 3, of a join that may read", "entails\nfree a b\na with b\nthen\na join b may read",
     "no: this solution of the first system cannot have 'a join b may read' (line 5)"),
    ("names that the answer's lines have too", "entails\nfree height answer reason\nheight is (*o)\nthen\nheight is not (*o)",
     "no: this solution of the first system cannot have 'height is not (*o)' (line 5)"),
    ("a long name", f"satisfiable\nfree {'n' * 255}", "yes: this is a solution"),
    ("names that start alike",
     "satisfiable\nfree {0}first {0}second {0}third\n{0}first join {0}second is {0}third".format("the_share_of_the_"),
     "yes: this is a solution"),
    ("twelve long names in capitals", f"satisfiable\nfree {' '.join('W' * 254 + sign for sign in 'ABCDEFGHIJKL')}",
     "yes: this is a solution"),
    ("a long clause", "entails\nfree {0}\nthen\n{0} is not {0}".format("M" * 255),
     "no: this solution of the first system cannot have '{0} is not {0}' (line 4)".format("M" * 255)),
    ("joins inside", "satisfiable\nfree a b c\na join b join c is *\na is not o\nb is not o\nc is not o", "yes: this is a solution"),
    ("height 4", "satisfiable\nfree a b\na join b is ((((*o)*)*)o)\na is not o\nb is not o", "yes: this is a solution"),
    ("height 5", "satisfiable\nfree a\na is (((((*o)o)o)o)(o(o(o(o*)))))", "yes: this is a solution"),
    ("a wide one", "satisfiable\nfree a\na is " + "(" * 5 + "*o)" + "(*o))((*o)(*o)))(((*o)(*o))((*o)(*o))))((((*o)(*o))((*o)(*o)))(((*o)(*o))((*o)(*o)))))",
     "yes: this is a solution"),
    ("height 10, 12 variables", TALL, "yes: this is a solution"),
]


def inside(root, element):
    """Whether a part of a picture lies within it, as far as its numbers say."""
    wide, tall = (float(root.get(side)) for side in ("width", "height"))
    across = [float(element.get(name)) for name in ("x", "x1", "x2", "cx") if element.get(name)]
    down = [float(element.get(name)) for name in ("y", "y1", "y2", "cy") if element.get(name)]
    end = (float(element.get("width") or 0), float(element.get("height") or 0))
    return all(0 <= at <= wide - end[0] for at in across) and all(0 <= at <= tall - end[1] for at in down)


def text_width(element):
    """About how wide a line of text is, and from where to where it goes: from a place on, or with it as its middle."""
    monospace = element.get("font-family") == "monospace"
    letters = [0.61 if monospace else 0.99 if sign in "MW" else 0.53 for sign in element.text]
    wide, at = float(element.get("font-size")) * sum(letters), float(element.get("x"))
    return (at, at + wide) if element.get("font-size") == "15" else (at - wide / 2, at + wide / 2)


def overlap(one, other):
    """Whether two leaves cover a common place."""
    return all(abs(float(one.get(at)) - float(other.get(at))) < float(one.get(side)) for at, side in (("x", "width"), ("y", "height")))


def halves(tree):
    """The two halves of a tree text."""
    depth = 0
    for at, sign in enumerate(tree[1:], 1):
        depth += {"(": 1, ")": -1}.get(sign, 0)
        if depth == 0:
            return tree[1:at + 1], tree[at + 1:-1]


def drawn_parts(tree, levels=99, way=None, path=""):
    """The parts of a tree text that are drawn as one square, from their places, which are paths of left and right:
    leaves, and what lies below so many levels, but for where a way leads."""
    on_way = way is not None and way.startswith(path)
    if len(tree) == 1 or (len(path) >= levels and not on_way):
        return {path: tree}
    left, right = halves(tree)
    return drawn_parts(left, levels, way, path + "l") | drawn_parts(right, levels, way, path + "r")


def fullness(tree):
    """How much of a tree is full."""
    return float(tree == "*") if len(tree) == 1 else sum(map(fullness, halves(tree))) / 2


def squares(group):
    """The squares of a drawn tree, and how far each is filled; one that is filled in part is grey."""
    shapes = [shape for shape in group.iter() if shape.tag in (f"{SVG}rect", f"{SVG}path")]
    for shape, after in zip(shapes, shapes[1:] + [None]):
        if shape.tag == f"{SVG}rect":
            fill, high = shape.get("fill"), float(shape.get("height"))
            part = float(re.search(r"v([\d.]+)", after.get("d"))[1]) / high if fill == MIXED else None
            yield shape, {FULL: 1.0, EMPTY: 0.0, MIXED: part}[fill]


def tree_groups(root):
    """The groups of a picture that are trees, by their titles."""
    titled = [(group.find(f"{SVG}title"), group) for group in root.iter(f"{SVG}g")]
    return {title.text: group for title, group in titled if title is not None}


def no_spaces(texts):
    return "".join(texts).replace(" ", "")


def check_picture(name, svg, shown, *said, way=None):
    """A picture of shown trees: well formed, not too wide, all within its frame, each leaf once, nothing on top of
    something else, no name and no text cut. Where it says so, trees are drawn to so many levels, and further on a
    way."""
    root = ElementTree.fromstring(svg)
    levels = int((re.search(r"drawn to (\d+) levels", said[-1]) or [0, 99])[1])
    check(f"{name}: title", root.find(f"{SVG}title").text, ", ".join(["; ".join(said)] + [f"{variable} {tree}" for variable, tree in shown.items()]))
    drawn = tree_groups(root)
    labels = [text for group in drawn.values() for text in group.iter(f"{SVG}text")]
    sentences = [text for text in root.iter(f"{SVG}text") if text not in labels]
    check(f"{name}: the sentences", no_spaces(text.text for text in sentences), no_spaces(said))
    check(f"{name}: all within the frame", [element.attrib for element in root.iter() if not inside(root, element)], [])
    wide = float(root.get("width"))
    check(f"{name}: not too wide", wide <= WIDEST, True)
    ends = [(text.text, *text_width(text)) for text in sentences + labels]
    check(f"{name}: no text leaves the frame", [text for text, left, right in ends if left < 0 or right > wide], [])
    check(f"{name}: each tree", list(drawn), [f"{variable} {tree}" for variable, tree in shown.items()])
    places, rows = {}, {}
    for (variable, tree), group in zip(shown.items(), drawn.values()):
        due, found = drawn_parts(tree, levels, way), list(squares(group))
        full = [round(fullness(part), 3) for part in due.values()]
        check(f"{name}: the leaves of {tree}", [round(part, 3) for _, part in found], full)
        covered = any(overlap(one, other) for (one, _), (other, _) in combinations(found, 2))
        check(f"{name}: no leaf of {tree} is on another", covered, False)
        under = list(group.iter(f"{SVG}text"))
        written = [text for text in under if text.get("font-family") == "monospace"]
        named = [text for text in under if text not in written]
        whole = no_spaces(text.text for text in named), "".join(text.text for text in written)
        check(f"{name}: the name {variable} and its text are whole", whole, (no_spaces(variable), tree))
        for path, (leaf, _) in zip(due, found):
            middle = float(leaf.get("x")) + float(leaf.get("width")) / 2
            places.setdefault(path, set()).add(round(middle - float(under[0].get("x")), 1))
        for text in under:
            rows.setdefault(text.get("y"), []).append(text_width(text))
    check(f"{name}: the same place in two trees is the same part", [path for path, found in places.items() if len(found) > 1], [])
    check(f"{name}: no text is on another", [row for row in rows.values() if any(one[1] > other[0] for one, other in zip(row, row[1:]))], [])


def test_pictures():
    for name, text, said in QUESTIONS:
        status, svg, errors = command("ask", "--svg", "-", given=text.encode())
        check(f"{name}: status", (status, errors), (int(said.startswith("no")), ""))
        answer = json.loads(command("ask", "--json", "-", given=text.encode())[1])
        check_picture(name, svg, answer["solution"] or {}, *said.split("; "))
        check(f"{name}: docs/draw draws the same", command("docs/draw", "-", given=text.encode()), (0, svg, ""))
    check("no picture without an answer", process("docs/draw", "-", given=b"no"), (2, b"", "-:1:1: 'satisfiable' or 'entails' is due here, not 'no'\n"))


def marked(svg, levels=99, way=None):
    """Which leaves of each tree are marked, as paths of left and right."""
    found = {}
    for title, group in tree_groups(ElementTree.fromstring(svg)).items():
        name, tree = title.rsplit(" ", 1)
        drawn = zip(drawn_parts(tree, levels, way), squares(group))
        found[name] = [path for path, (leaf, _) in drawn if leaf.get("stroke")]
    return found


OUTLINE = "that leaf has a red outline"
PARTS = "satisfiable\nfree a b c\nlet L = (*o)\na join b is c\nc is L\na is not o"
# A question, rows, what is said of them, the trees that are shown, and in which of them which leaf is marked.
JUDGED = [
    ("accepted", PARTS, "c L\na ((*o)o)\nb ((o*)o)", ["accepted: the rows solve the system"], {"a": "((*o)o)", "b": "((o*)o)", "c": "(*o)"}, {}),
    ("extends", "entails\nfree a\nown x\nthen\nx is a", "a (o*)", [EXTENDS], {"a": "(o*)"}, {}),
    ("no extension", "entails\nfree a\nthen\na is o", "a (o*)",
     ["accepted: the rows solve the first system, and no own shares extend them to the second"], {"a": "(o*)"}, {}),
    ("no variable", "satisfiable\n* is o", "", [*fails("0, line 2: * is o", EQUALS, "surplus", "* is full, o is empty", 0, "always left").split("\n"), OUTLINE],
     {"*": "*", "o": "o"}, {"*": "", "o": ""}),
    ("a join", PARTS, "a ((*o)o)\nb ((o*)(o*))\nc (*o)",
     [*fails("0, line 4: a join b is c", JOINS, "surplus", "a is empty, b is full, c is empty", 768, "right, right, then always left").split("\n"), OUTLINE],
     {"a": "((*o)o)", "b": "((o*)(o*))", "c": "(*o)"}, {"a": "r", "b": "rr", "c": "r"}),
    ("a constant", PARTS, "a (o*)\nb (*o)\nc *",
     [*fails("1, line 5: c is L", EQUALS, "surplus", "c is full, L is empty", 512, "right, then always left").split("\n"), OUTLINE],
     {"a": "(o*)", "b": "(*o)", "c": "*", "L": "(*o)"}, {"c": "", "L": "r"}),
    ("a disequation", PARTS, "a o\nb L\nc L", never("2, line 6: a is not o", "a is o").split("\n"), {"a": "o", "b": "(*o)", "c": "(*o)", "o": "o"}, {}),
    ("joins inside", "satisfiable\nfree a b c d\na join b join (o*) is d", "a ((*o)o)\nb ((o*)o)\nc o\nd (*(*o))",
     [*fails("1, line 3: a join b join (o*) is d", JOINS, "surplus", "a join b is empty, (o*) is full, d is empty", 768,
             "right, right, then always left").split("\n"), OUTLINE],
     {"a": "((*o)o)", "b": "((o*)o)", "c": "o", "d": "(*(*o))", "a join b": "(*o)", "(o*)": "(o*)"}, {"a join b": "r", "(o*)": "r", "d": "rr"}),
    ("a join that is undefined", "satisfiable\nfree a b c\na join b join c is *", "a *\nb (o*)\nc o",
     [*fails("0, line 3: a join b join c is *", JOINS, "overlap", "a is full, b is full", 512, "right, then always left").split("\n"), OUTLINE],
     {"a": "*", "b": "(o*)", "c": "o"}, {"a": "", "b": "r"}),
    ("a tall row", "satisfiable\nfree a b\na with b", f"a {TALLEST}\nb ((((*o)o)o)*)",
     [*fails("0, line 3: a with b", WITHS, "overlap", "a is full, b is full", 0, "always left").split("\n"), OUTLINE],
     {"a": TALLEST, "b": "((((*o)o)o)*)"}, {"a": "l" * 10, "b": "llll"}),
]


def test_judged_pictures():
    """Rows that were judged, the trees that are shown beside them, and the leaf that is marked."""
    for name, question, rows, said, shown, marks in JUDGED:
        status, svg, errors = judged(question, rows, "--svg")
        check(f"{name}, judged: status", (status, errors), (int(not said[0].startswith("accepted")), ""))
        check_picture(f"{name}, judged", svg, shown, *said)
        check(f"{name}, judged: the leaf that is marked", marked(svg), {word: [marks[word]] if word in marks else [] for word in shown})
    for question, rows, _ in FAILING + INSIDE:
        said, svg = json.loads(judged(question, rows, "--json")[1]), judged(question, rows, "--svg")[1]
        path, found = "".join(step[0] for step in said["path"] or []), marked(svg)
        check(f"{rows!r} for {question!r}: the leaf that is marked", {word: len(paths) for word, paths in found.items()},
              {word: int(word in (said["values"] or {})) for word in found})
        check(f"{rows!r} for {question!r}: where it is", [word for word, paths in found.items() if not all(path.startswith(place) for place in paths)], [])
        check(f"{rows!r} for {question!r}: each share is drawn", set(said["values"] or {}) - set(found), set())
    check("no picture of rows in error", judged(PARTS, "a o", "--svg"), (2, b"", "-:1:4: no row for b, c: a line for each is due before the text ends\n"))


COARSER = "the trees are too wide to be drawn whole: they are drawn to {} levels{}; a grey square is a part that is " \
    "split further, filled with blue as far as it is full"
ON_THE_WAY = " and, on the way to the leaf with the red outline, to their end"
BOTH = "satisfiable\nfree a b\na join b is *"
ALTERNATING = [write_tree((1 << 1024) // 3 * one, 10) for one in (1, 2)]
RANDOM = Random(41).getrandbits(1024) & ~(1 << 700)
# Rows for BOTH that are too wide to be drawn whole: what is said, to how many levels they are drawn, and the number of
# the leaf that is marked.
WIDE = [
    ("alternating", ALTERNATING, [ACCEPTED], 7, None),
    ("161 leaves", [balanced(161), "o"], None, 7, 0),
    ("one leaf that is missing", [write_tree(RANDOM, 10), write_tree((1 << 1024) - 1 ^ RANDOM ^ 1 << 700, 10)],
     [*fails("0, line 3: a join b is *", JOINS, "shortfall", "a is empty, b is empty, * is full", 700,
             "right, left, right, left, right, right, right, right, then always left").split("\n"), OUTLINE], 7, 700),
]


def test_wide_pictures():
    """Trees with many leaves are drawn coarser, so that a picture stays as wide as can be looked at; the way to a leaf
    that is marked is kept."""
    for name, trees, said, levels, leaf in WIDE:
        status, svg, errors = judged(BOTH, "a {}\nb {}\n".format(*trees), "--svg")
        title = ElementTree.fromstring(svg).find(f"{SVG}title").text
        way = None if leaf is None else f"{leaf:010b}".replace("0", "l").replace("1", "r")
        coarse = COARSER.format(levels, "" if way is None else ON_THE_WAY)
        shown = dict(zip("ab", trees)) | ({"*": "*"} if way else {})
        said = said or title.split(f"; {coarse}")[0].split("; ")
        check(f"{name}, wide: status", (status, errors), (int(not said[0].startswith("accepted")), ""))
        check_picture(f"{name}, wide", svg, shown, *said, coarse, way=way)
        places = {word: drawn_parts(tree, levels, way) for word, tree in shown.items()}
        due = {word: [path for path in paths if way and way.startswith(path)] for word, paths in places.items()}
        check(f"{name}, wide: the leaf that is marked", marked(svg, levels, way), due)
    svg = judged("satisfiable\nfree a", f"a {balanced(160)}", "--svg")[1]
    check_picture("160 leaves", svg, {"a": balanced(160)}, ACCEPTED)


def test_stored_picture():
    """The stored picture is what is drawn now, of the answer to its question."""
    stored = (TOP / "docs" / "counterexample.svg").read_bytes()
    check("the picture is drawn again", process("docs/draw"), (0, stored, ""))
    example = str(TOP / "examples" / "third_part.shares")
    check("ask draws it too", process("ask", "--svg", example), (1, stored, ""))
    solution = json.loads(process("ask", "--json", example)[1])["solution"]
    check_picture("the stored picture", stored, solution,
                  "no: this solution of the first system cannot have 'spare is not o' (line 13) beside "
                  "'list join spare is sum' (line 12)")
