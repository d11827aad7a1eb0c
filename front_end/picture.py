"""The picture of an answer, or of rows that were judged, as SVG: what it means in words, and each shown tree over its name. Where a positive clause
is broken, the leaf where it fails is marked in the trees of its shares.

All trees of a picture are laid out alike, so that the same place in two trees is the same part. Low trees are laid out as if they
had all leaves of their height, and a half is half as wide; in tall ones each part that some tree splits no further is as wide as any other.
Trees that are too wide for a picture are drawn coarser: a part far down is one square, filled as far as it is full.
Names and tree texts are never cut: they go on in the next line.
"""

import re
from html import escape as escape_all
from math import ceil

from front_end.broken import SIDES

MARGIN, GAP, LEVEL, LEAF, SLOT = 32, 36, 46, 18, 20
LOW = 4  # the height of a low tree
ROW, NARROWEST, THINNEST = 1280, 480, 128  # how wide a row of several trees may be, and a picture and a tree at least
WIDEST, MOST_LEAVES = 1936, 160  # how wide a tree may be, and how many leaves it may have there
LABEL = 260  # a column gets as wide as this for a long name
LINE, TEXT_LINE = 24, 18  # how high a line is, and one of tree text
SENTENCE, NAME, TEXT = 15, 17, 14  # sizes of letters
SIGN, MONOSPACE = 8.5, ' font-family="monospace"'  # how wide a sign of tree text is, and in which letters it is
PAPER, INK, FULL, EMPTY, MIXED = "#f4f1ea", "#2b2b2b", "#1f3a5f", "#ffffff", "#c3c9d2"
RED = "#d62f1f"  # the outline of a leaf that is marked

# About how wide letters are, of their size: at most so wide in the usual fonts.
LETTERS = {"mwMW": 1.0, "ABCDEFGHKNOPQRSTUVXYZ": 0.78, "fijlrtI.,:;'() ": 0.42}
OTHERS = 0.64


def escape(text):
    return escape_all(text, quote=False)


def wide(text, size):
    """About how wide a text is."""
    return size * sum(next((most for letters, most in LETTERS.items() if letter in letters), OTHERS) for letter in text)


def fold(text, size, room):
    """The lines of a text, none wider than the room: it is parted after a space or a '_', or where it must be."""
    lines, line = [], ""
    for part in re.findall(r"[^ _]*[ _]|[^ _]+", text):
        if line and wide(line + part.rstrip(), size) > room:
            lines.append(line)
            line = ""
        for letter in part:
            if line and wide(line + letter.rstrip(), size) > room:
                lines.append(line)
                line = ""
            line += letter
    return [line.rstrip() for line in lines + [line]]


def fold_tree(text, room):
    """The lines of a tree text, about as long as each other."""
    lines = ceil(len(text) * SIGN / room)
    most = ceil(len(text) / lines)
    return [text[start:start + most] for start in range(0, len(text), most)]


def caption(asked, answer):
    """What an answer and its picture say."""
    return f"{answer.verdict}: {answer.words(asked)}"


def read_halves(signs):
    """A tree from the characters of its text: 'o', '*', or its two halves."""
    sign = next(signs)
    if sign != "(":
        return sign
    halves = read_halves(signs), read_halves(signs)
    next(signs)
    return halves


def is_leaf(tree):
    return isinstance(tree, str)


def height(tree):
    return 0 if is_leaf(tree) else 1 + max(map(height, tree))


def count(tree):
    """How many leaves a tree has."""
    return 1 if is_leaf(tree) else sum(map(count, tree))


def fullness(tree):
    """How much of a tree is full, from 0 to 1."""
    return int(tree == "*") if is_leaf(tree) else sum(map(fullness, tree)) / 2


def all_leaves(levels):
    return "o" if levels == 0 else (all_leaves(levels - 1),) * 2


def split_as(trees):
    """A tree that is split wherever one of these is."""
    pairs = [tree for tree in trees if not is_leaf(tree)]
    return tuple(split_as([pair[side] for pair in pairs]) for side in (0, 1)) if pairs else "o"


def below(path, side):
    """What is left of a path in a half: None, if it does not lead there."""
    return path[1:] if path and path[0] == side else None


def coarser(shape, levels, path):
    """A shape that is split to so many levels alone, and further down only where a path leads."""
    if is_leaf(shape) or (levels <= 0 and path is None):
        return "o"
    return tuple(coarser(half, levels - 1, below(path, side)) for side, half in zip(SIDES, shape))


class Layout:
    """Where things stand in the trees of a picture: a tree that says how each is split, how wide one leaf of it is,
    and how wide a column is. If there would be too many leaves, 'levels' is to how many levels the trees are drawn;
    otherwise it is None."""

    def __init__(self, trees, path, names):
        tallest = max(map(height, trees), default=0)
        whole = all_leaves(tallest) if tallest <= LOW else split_as(trees)
        self.shape, self.levels = whole, None
        while count(self.shape) > MOST_LEAVES:
            self.levels = (self.levels or tallest) - 1
            self.shape = coarser(whole, self.levels, path)
        self.slot = min(max(SLOT, THINNEST / count(self.shape)), WIDEST / count(self.shape))
        self.tree = self.slot * count(self.shape)
        self.width = max(self.tree, min(LABEL, max((wide(name, NAME) for name in names), default=0)))
        self.leaf = min(LEAF, self.slot - 2)

    def square(self, tree, middle, top, marked):
        """One leaf, or a part that is drawn as one."""
        outline = min(4, self.slot / 3) if marked else 0
        wide = min(self.leaf, self.slot - outline)
        left, up = middle - wide / 2, top - LEAF / 2
        mark = f' stroke="{RED}" stroke-width="{outline:g}"' if marked else ""
        fill = MIXED if not is_leaf(tree) else FULL if tree == "*" else EMPTY
        square = [f'<rect x="{left:g}" y="{up:g}" width="{wide:g}" height="{LEAF}" rx="{min(3, wide / 4):g}" '
                  f'fill="{fill}"{mark}/>']
        if not is_leaf(tree):
            high = LEAF * fullness(tree)
            path = f"M{left:g} {up + LEAF - high:g}h{wide:g}v{high:g}h{-wide:g}z"
            square.append(f'<path d="{path}" fill="{FULL}" stroke="none"/>')
        return square

    def draw(self, tree, shape, left, top, path=None):
        """The drawing of a tree, or of the part of one that is split as a shape; lines before what they lead to. If a path is given, the leaf that it
        leads to is marked."""
        middle = left + self.slot * count(shape) / 2
        if is_leaf(tree) or is_leaf(shape):
            return self.square(tree, middle, top, path is not None)
        lines = []
        for side, half, part in zip(SIDES, tree, shape):
            wide = self.slot * count(part)
            lines.append(f'<line x1="{middle:g}" y1="{top:g}" x2="{left + wide / 2:g}" y2="{top + LEVEL:g}"/>')
            lines += self.draw(half, part, left, top + LEVEL, below(path, side))
            left += wide
        return lines + [f'<circle cx="{middle:g}" cy="{top:g}" r="3" fill="{INK}"/>']

    def levels_of(self, tree):
        """How many levels of a tree are drawn."""
        def drawn(tree, shape):
            return 0 if is_leaf(tree) or is_leaf(shape) else 1 + max(map(drawn, tree, shape))
        return drawn(tree, self.shape)

    def said(self, path):
        """What is said of trees that are drawn coarser."""
        if self.levels is None:
            return []
        further = " and, on the way to the leaf with the red outline, to their end" if path else ""
        return [f"the trees are too wide to be drawn whole: they are drawn to {self.levels} levels{further}; "
                "a grey square is a part that is split further, filled with blue as far as it is full"]


def text_line(x, y, size, text, more=""):
    return f'<text x="{x:g}" y="{y:g}" font-size="{size}"{more}>{escape(text)}</text>'


def draw_named(layout, name, tree, text, left, top, labels, path):
    """One tree, with the leaf at the end of a path marked if one is given, and below it its name and text, as lines
    with their places."""
    middle = left + layout.width / 2
    return [f"<g><title>{escape(f'{name} {text}')}</title>", f'<g stroke="{INK}" stroke-width="1.5">',
            *layout.draw(tree, layout.shape, middle - layout.tree / 2, top, path), "</g>",
            *(text_line(middle, *label) for label in labels), "</g>"]


def draw_rows(layout, shown, trees, columns, top, paths):
    """All trees in rows, and where the last row ends. In a row all names start at one height, and so do all texts."""
    lines, names, room = [], list(shown), layout.width + GAP / 2
    for start in range(0, len(names), columns):
        row = names[start:start + columns]
        below = top + LEVEL * max(layout.levels_of(trees[name]) for name in row) + 38
        folded = {name: (fold(name, NAME, room), fold_tree(shown[name], room)) for name in row}
        text_top = below + LINE * max(len(words) for words, _ in folded.values())
        for number, name in enumerate(row):
            words, texts = folded[name]
            labels = [(below + LINE * at, NAME, line) for at, line in enumerate(words)]
            labels += [(text_top + TEXT_LINE * at, TEXT, line, MONOSPACE) for at, line in enumerate(texts)]
            left = MARGIN + number * (layout.width + GAP)
            lines += draw_named(layout, name, trees[name], shown[name], left, top, labels, paths.get(name))
        top = text_top + TEXT_LINE * (max(len(texts) for _, texts in folded.values()) - 1) + GAP + LEAF
    return lines, top


def draw_all(said, shown, paths):
    """The picture of shown trees under some sentences. In the tree of each name with a path the leaf that it leads to is marked."""
    trees = {name: read_halves(iter(text)) for name, text in shown.items()}
    path = next(iter(paths.values()), None)
    layout = Layout(list(trees.values()), path, list(shown))
    columns = max(1, min(len(shown), int((ROW + GAP) // (layout.width + GAP))))
    wide = max(NARROWEST, round(2 * MARGIN + columns * (layout.width + GAP) - GAP))
    said = said + layout.said(path)
    lines = [line for sentence in said for line in fold(sentence, SENTENCE, wide - 2 * MARGIN)]
    rows, end = draw_rows(layout, shown, trees, columns, MARGIN + LINE * len(lines) + LEAF, paths)
    tall = end - GAP if shown else end
    return "\n".join([f'<svg xmlns="http://www.w3.org/2000/svg" viewBox="0 0 {wide} {tall}" width="{wide}" height="{tall}" font-family="sans-serif">',
                      f"<title>{escape(', '.join(['; '.join(said)] + [f'{name} {text}' for name, text in shown.items()]))}</title>",
                      f'<rect width="{wide}" height="{tall}" rx="10" fill="{PAPER}"/>', f'<g fill="{INK}">',
                      *(text_line(MARGIN, MARGIN + LINE * at + 6, SENTENCE, line) for at, line in enumerate(lines)),
                      "</g>", f'<g fill="{INK}" text-anchor="middle">', *rows, "</g>", "</svg>"])


def picture(asked, answer):
    """The picture of the answer to what a text asks."""
    said, shown = [caption(asked, answer)], answer.named(asked.names)
    return draw_all(said + ["there is no variable to be drawn"] * (answer.height is not None and not shown), shown, {})


def judged_picture(found):
    """The picture of rows that were judged."""
    said, broken = found.sentences(), found.broken
    if not broken or broken.way is None:
        return draw_all(said + ["there is no variable to be drawn"] * (not found.shown()), found.shown(), {})
    return draw_all([*said, "that leaf has a red outline"], found.shown(), dict.fromkeys(broken.shares(), broken.path()))
