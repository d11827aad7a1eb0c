"""Texts and byte strings with what is due, worked by hand."""

EMPTY, FULL, LEFT, RIGHT = "03 00 00 00 00", "03 FF FF FF FF", "03 FF FF 00 00", "03 00 00 FF FF"

# Lines of the help: what the status of ask says.
STATUSES = ["0  yes; with --judge: accepted", "1  no; with --judge: rejected", "2  refused, or an error", "3  the answer could not be written"]

# The worked questions of SPEC 12.1 to 12.14; 'printed' is 12.13, 'half_not_full' is 12.14.
WORKED = """printed no_clause joined_to_itself doubled three_not_empty five_not_empty not_the_left_half undefined_join
no_first_solution left_half_not_inside can_be_split may_be_empty half_not_empty half_not_full""".split()

# The longest tree text of a constant, and one of 97 characters without its last leaf.
LONGEST_TREE = "(((((o*)(o*))((o*)(o*)))(((o*)(o*))((o*)(o*))))((((o*)(o*))((o*)(o*)))(((o*)(o*))((o*)(o*)))))"
LONG_TREE = "(o" * 32 + "{}" + ")" * 32

# A text, and its bytes in hexadecimal.
BYTES = [
    ("satisfiable", "01 00 00 00 00"),
    ("entails\nthen", "01 01 00 00 00"),
    ("entails\nfree a\nthen\nif\na is a # the second system has no clause", "01 01 01 00 12 00 00 00"),
    ("satisfiable\r\nfree a # b\r\n\r\na is a\r", "01 00 01 00 12 00 00 00"),
    # A byte order mark at the start, and bytes that are no UTF-8 in a comment.
    ("\ufeffsatisfiable\nfree a", "01 00 01 00 00"),
    (b"satisfiable # \xff\xfe\nfree a", "01 00 01 00 00"),
    ("\n# a comment\n  satisfiable # another, with ü\r\n\n", "01 00 00 00 00"),
    ("satisfiable\nfree a b c\na join b is c", "01 00 03 00 10 00 01 02 00"),
    ("satisfiable\nfree a b c\nnot a join b is c", "01 00 03 00 11 00 01 02 00"),
    ("satisfiable\nfree a b\nb is a", "01 00 02 00 12 01 00 00"),
    ("satisfiable\nfree a b\nb is not a", "01 00 02 00 13 01 00 00"),
    ("entails\nfree a\nown b c\nthen\na join b is c", "01 01 01 02 20 00 01 02 00"),
    ("entails\nfree a\nown b c\nthen\nnot c join b is a", "01 01 01 02 21 02 01 00 00"),
    ("entails\nfree a\nown b\nthen\na is b", "01 01 01 01 22 00 01 00"),
    ("entails\nfree a\nown b\nthen\na is not b", "01 01 01 01 23 00 01 00"),
    ("satisfiable\nfree a b\nb may write", "01 00 02 00 30 01 00"),
    ("satisfiable\nfree a b\nb may read", "01 00 02 00 31 01 00"),
    ("satisfiable\nfree a b\nb with a", "01 00 02 00 32 01 00 00"),
    ("entails\nfree a\nown b\nthen\nb may write", "01 01 01 01 38 01 00"),
    ("entails\nfree a\nown b\nthen\nb may read", "01 01 01 01 39 01 00"),
    ("entails\nfree a\nown b\nthen\nb with a", "01 01 01 01 3A 01 00 00"),
    ("satisfiable\n(*o) may write\n* may read\n(*o) with (o*)", f"01 00 00 00 {LEFT} {FULL} {RIGHT} 30 20 31 21 32 20 22 00"),
    # Words that are not reserved: where they stand says whether they are names.
    ("satisfiable\nfree may with\nlet write = (*o)\nlet read = o\nmay may write\nwith may read\nwith with may\nwrite may write\nread with with\nmay is not with",
     f"01 00 02 00 {LEFT} {EMPTY} 30 00 31 01 32 01 00 30 20 32 21 01 13 00 01 00"),
    ("satisfiable\nfree may with write\nmay join with is write\nnot with join may is with\nmay join with with with join may",
     "01 00 05 00 10 00 01 02 11 01 00 01 10 00 01 03 10 01 00 04 32 03 04 00"),
    # Names that are written like such words, large, or like shares.
    ("satisfiable\nfree Then full empty IF\nThen is full\nempty join IF is Then",
     "01 00 04 00 12 00 01 10 02 03 00 00"),
    # Own variables come after all free ones, in whatever order the lines stand.
    ("entails\nown x\nfree a\nown y\nfree b\nthen\nx join y is b", "01 01 02 02 20 02 03 01 00"),
    # The systems alternate.
    ("entails\nfree a\nthen\na is a\nif\na is not a\nthen\na is not a", "01 01 01 00 22 00 00 13 00 00 23 00 00 00"),
    ("satisfiable\nif\n* is *", f"01 00 00 00 {FULL} 12 20 20 00"),
    # Joins inside a clause have fresh variables: free ones after the named ones, own ones at the end.
    ("satisfiable\nfree a b c d\na join b join c is d", "01 00 05 00 10 00 01 04 10 04 02 03 00"),
    ("satisfiable\nfree a b c d\na join b is c join d", "01 00 05 00 10 00 01 04 10 02 03 04 00"),
    ("satisfiable\nfree a b\na join b join b join a is b join b join a",
     "01 00 06 00 10 00 01 02 10 02 01 03 10 03 00 04 10 01 01 05 10 05 00 04 00"),
    ("satisfiable\nfree a\na join a join a is a\na join a join a is a", "01 00 03 00 10 00 00 01 10 01 00 00 10 00 00 02 10 02 00 00 00"),
    ("entails\nfree a b\nown c\nthen\na join b join c is *", f"01 01 02 02 {FULL} 20 00 01 03 20 03 02 20 00"),
    ("entails\nfree a b c\nown d\nthen\nd is a\nif\na join b join c is a\nthen\nd join d is a join b\nif\na join b is c join c\nthen\nd is b",
     "01 01 05 02 22 05 00 10 00 01 03 10 03 02 00 20 05 05 06 20 00 01 06 10 00 01 04 10 02 02 04 22 05 01 00"),
    ("satisfiable\nfree a b c\na join b may write\na join b join c may read", "01 00 06 00 10 00 01 03 30 03 10 00 01 04 10 04 02 05 31 05 00"),
    ("satisfiable\nfree a b c\na with b join c\na join b with c", "01 00 05 00 10 01 02 03 32 00 03 10 00 01 04 32 04 02 00"),
    ("entails\nfree a b\nown c\nthen\na join c may read\na join b with b join c",
     "01 01 02 04 20 00 02 03 39 03 20 00 01 04 20 01 02 05 3A 04 05 00"),
    ("entails\nfree a b\nown c\nthen\nc may read\nif\na join b may write\nthen\nc with a", "01 01 03 01 39 03 10 00 01 02 30 02 3A 03 00 00"),
    # Constants: those of 'let' in order, equal ones too, then each new tree of the clauses once.
    ("satisfiable\nlet A=(*o)\nlet B = (*o)\nB is A", f"01 00 00 00 {LEFT} {LEFT} 12 21 20 00"),
    ("satisfiable\nlet B = (*o)\n(*o) is (o*)\n(o*) is not *", f"01 00 00 00 {LEFT} {RIGHT} {FULL} 12 20 21 13 21 22 00"),
    ("satisfiable\nfree a\na is o\na join o is *", f"01 00 01 00 {EMPTY} {FULL} 12 00 20 10 00 20 21 00"),
    ("satisfiable\nlet unused = ((o*)(*o))", "01 00 00 00 03 00 FF FF 00 00"),
    ("satisfiable\nlet low = (((((*o)o)o)o)o)\nlet high = (o(o(o(o(o*)))))", "01 00 00 00 03 01 00 00 00 03 00 00 00 80 00"),
    ("satisfiable\nlet mixed = ((*(o*))(o(*o)))", "01 00 00 00 03 FF F0 00 0F 00"),
    (f"satisfiable\nlet longest = {LONGEST_TREE}", "01 00 00 00 03 AA AA AA AA 00"),
    # Joins in 'let': one constant a line, no variable and no clause.
    ("satisfiable\nlet L = (*o)\nlet R = (o*)\nlet F = L join R", f"01 00 00 00 {LEFT} {RIGHT} {FULL} 00"),
    ("satisfiable\nlet F=(*o)  join\t(o*) # full\r", f"01 00 00 00 {FULL} 00"),
    ("satisfiable\nlet F = o join * join o\nlet E = o join o", f"01 00 00 00 {FULL} {EMPTY} 00"),
    ("satisfiable\nlet low = (((((*o)o)o)o)o)\nlet J = ((o*)o) join low join (o(o(o(o(o*)))))\nlet K = J join (((o*)o)o)",
     "01 00 00 00 03 01 00 00 00 03 01 FF 00 80 03 F1 FF 00 80 00"),
    (f"satisfiable\nlet A = {LONGEST_TREE}\nlet B = A join {LONGEST_TREE.replace('(o*)', '(*o)')}", f"01 00 00 00 03 AA AA AA AA {FULL} 00"),
    ("entails\nown x\nlet F = (*o) join (o*)\nfree a\nthen\nx is F", f"01 01 01 01 {FULL} 22 01 20 00"),
    # A constant's name alone defines another constant. The trees of a join are no constants of their own.
    ("satisfiable\nlet A = (*o)\nlet B = A\nB is A", f"01 00 00 00 {LEFT} {LEFT} 12 21 20 00"),
    ("satisfiable\nlet F = (*o) join (o*)\n* is (o*)", f"01 00 00 00 {FULL} {RIGHT} 12 20 21 00"),
    # In a clause a join of constants is a clause.
    ("satisfiable\nfree x\nlet L = (*o)\nlet R = (o*)\nL join R is x", f"01 00 01 00 {LEFT} {RIGHT} 10 20 21 00 00"),
]

NAME = "a name (letters a to z, digits and '_', no digit first)"
KEPT = "satisfiable, entails, free, own, let, if, then, not, join, is and o have a meaning of their own"
UNKNOWN = "a line 'free {0}' before the first clause makes it a variable"
UNKNOWN_CONSTANT = "a line 'let {0} = (*o)' before this one makes it a constant"
CONSTANT = "a tree or a constant's name"
VARIABLE = "a constant is due here, and '{}' is a variable: a join with a variable is a clause, as in 'a join b is c'"
UNDEFINED = "the join is undefined: '{}' and what stands before it, '{}', have the common part '{}'"
NOT_INSIDE = "a negated clause has one join, 'not a join b is c': give the join inside it a variable of its own, as in 'a join b is t' and " \
    "'not t join c is d', which also asks that a join b is defined"
NOT_WITH = "that shares may not be held together cannot be said as one clause: give their common part a variable of its own, as in " \
    "'p join q is a', 'p join r is b' and 'p may read'"
OF_A_JOIN = "give the join a variable of its own, as in 'a join b is t', and write"
TWICE = "two negations: write"
TOO_LONG = "no tree text: it is too long: a folded tree with at most 5 pairs one in the other has at most 94 characters"
NO_SECOND = "'entails' needs a second system: write a line 'then', and below it the clauses that are to follow from " \
    "those above"
CONTROL = "a control character (U+{}) stands here: remove it"
VERBS = "'join', 'is', 'may' or 'with'"
CLAUSE = "satisfiable\nfree a b c\n"

# A text, and where and why it is refused.
FAULTS = [
    ("", "1:1: the text asks nothing: 'satisfiable' or 'entails' is due in its first line"),
    ("# only a comment\n", "1:1: the text asks nothing: 'satisfiable' or 'entails' is due in its first line"),
    ("\n  free a\n", "2:3: 'satisfiable' or 'entails' is due here, not 'free'"),
    ("satisfiable a", "1:13: the end of the line is due here, not 'a'"),
    ("satisfiable\nentails", "2:1: the kind of question stands in the first line alone: a file asks one question"),
    # Names.
    ("satisfiable\nfree", "2:5: a name (letters a to z, digits and '_', no digit first) is due here, and the line ends"),
    ("satisfiable\nfree a # b\nfree  ", "3:5: a name (letters a to z, digits and '_', no digit first) is due here, and the line ends"),
    ("satisfiable\nfree a 7b", "2:8: '7b' starts with a digit, and a name does not: write '_7b', for example"),
    ("satisfiable\nlet 7 = o", "2:5: '7' starts with a digit, and a name does not: write '_7', for example"),
    (CLAUSE + "7b is a", "3:1: '7b' starts with a digit, and a name does not: write '_7b', for example"),
    ("satisfiable\nfree 7-b", f"2:6: {NAME} is due here, not '7-b'"),
    ("satisfiable\nfree a, b", "2:6: names are parted by spaces: write 'a' for 'a,'"),
    ("satisfiable\nfree \u00e4", f"2:6: {NAME} is due here, not '\u00e4'"),
    ("satisfiable\nfree a" + "b" * 255, f"2:6: the name 'a{'b' * 39}...' has 256 characters: it may have 255"),
    ("satisfiable\nfree join", f"2:6: 'join' cannot be a name: {KEPT}"),
    ("satisfiable\nfree o", f"2:6: 'o' cannot be a name: {KEPT}"),
    ("satisfiable\nlet then = o", f"2:5: 'then' cannot be a name: {KEPT}"),
    ("satisfiable\nfree a b\nfree c a", "3:8: 'a' is defined already, in line 2"),
    ("entails\nfree a\nown a", "3:5: 'a' is defined already, in line 2"),
    ("satisfiable\nfree a\nlet a = o", "3:5: 'a' is defined already, in line 2"),
    ("satisfiable\nlet L = o\nfree L", "3:6: 'L' is defined already, in line 2"),
    (CLAUSE + "a is\tbb", "3:6: nothing is named 'bb': " + UNKNOWN.format("bb")),
    (CLAUSE + "a join b is d", "3:13: nothing is named 'd': " + UNKNOWN.format("d")),
    (CLAUSE + "A is b", "3:1: nothing is named 'A': " + UNKNOWN.format("A")),
    (CLAUSE + "L = (*o)", "3:1: nothing is named 'L': a constant is defined by 'let', before the first clause: write 'let L = (*o)'"),
    (CLAUSE + "a is 0", "3:6: '0' is no share: write 'o' for the empty one, '*' for the full one"),
    (CLAUSE + "1 is a", "3:1: '1' is no share: write 'o' for the empty one, '*' for the full one"),
    (CLAUSE + "a join b is c c", "3:15: the end of the line is due here, not 'c'"),
    # Trees.
    ("satisfiable\nlet L", "2:6: '=' is due here, and the line ends"),
    ("satisfiable\nlet L (*o)", "2:7: '=' is due here, not '(*o)'"),
    ("satisfiable\nlet L =", f"2:8: {CONSTANT} is due here, and the line ends"),
    ("satisfiable\nlet L = (*x)", "2:11: no tree text: '(', 'o' or '*' is due here, not 'x'"),
    ("satisfiable\nlet L = (*)", "2:11: no tree text: '(', 'o' or '*' is due here, not ')'"),
    ("satisfiable\nlet L = (*o*)", "2:12: no tree text: ')' is due here, not '*'"),
    ("satisfiable\nlet L = (*o", "2:12: no tree text: it ends before the tree does"),
    ("satisfiable\nlet L = (*(o*)", "2:15: no tree text: it ends before the tree does"),
    ("satisfiable\nlet L = (*o)o", "2:13: no tree text: the tree ends before this character"),
    # Constants that are joined.
    ("satisfiable\nlet L = half", "2:9: nothing is named 'half': " + UNKNOWN_CONSTANT.format("half")),
    ("satisfiable\nlet L = (*o)\nlet W = L join R\nlet R = (o*)", "3:16: nothing is named 'R': " + UNKNOWN_CONSTANT.format("R")),
    ("satisfiable\nlet L = " + "l" * 50, f"2:9: nothing is named '{'l' * 40}...': " + UNKNOWN_CONSTANT.format("l" * 40 + "...")),
    ("satisfiable\nlet L = R = (o*)", "2:9: nothing is named 'R': a constant is defined by 'let', before the first clause: write 'let R = (o*)'"),
    ("satisfiable\nlet L = L", "2:9: a constant of a line before is due here, and 'L' is the one that this line defines"),
    ("satisfiable\nlet L = (*o) join  L", "2:20: a constant of a line before is due here, and 'L' is the one that this line defines"),
    (CLAUSE + "let L = (*o) join b", "3:19: " + VARIABLE.format("b")),
    ("entails\nown x\nlet L = x", "3:9: " + VARIABLE.format("x")),
    ("satisfiable\nlet L = join (*o)", f"2:9: {CONSTANT} is due here, not 'join'"),
    ("satisfiable\nlet L = (*o) join", f"2:18: {CONSTANT} is due here, and the line ends"),
    ("satisfiable\nlet L = (*o) join join (o*)", f"2:19: {CONSTANT} is due here, not 'join'"),
    ("satisfiable\nlet L = (*o) join # (o*)", f"2:18: {CONSTANT} is due here, and the line ends"),
    ("satisfiable\nlet L = (*o) join 1", "2:19: '1' is no share: write 'o' for the empty one, '*' for the full one"),
    ("satisfiable\nlet L = (*o) join 7b", "2:19: '7b' starts with a digit, and a name does not: write '_7b', for example"),
    ("satisfiable\nlet L = (*o) join =", f"2:19: {CONSTANT} is due here, not '='"),
    ("satisfiable\nlet L = (*o) (o*)", "2:14: 'join' or the end of the line is due here, not '(o*)'"),
    ("satisfiable\nlet L = (*o)\nlet R = L L", "3:11: 'join' or the end of the line is due here, not 'L'"),
    ("satisfiable\nlet L = (*o) join (o*) is *", "2:24: 'join' or the end of the line is due here, not 'is'"),
    ("satisfiable\nlet L = (*o) join (o(oo))", "2:21: a pair of two equal leaves must be folded: write 'o' for '(oo)'"),
    ("satisfiable\nlet L = (*o) join (o *)", "2:21: tree text has no spaces: write '(o*)'"),
    (CLAUSE + "let L = (*o)\nW = L  join (o*)", "4:1: nothing is named 'W': a constant is defined by 'let', before the first clause: write 'let W = L join (o*)'"),
    (CLAUSE + "W = L join (o*)", "3:1: nothing is named 'W': a constant is defined by 'let', before the first clause: write 'let W = (*o)'"),
    # Joins that are undefined, at the share that cannot be joined to what stands before it.
    ("satisfiable\nlet F = * join *", "2:16: " + UNDEFINED.format("*", "*", "*")),
    ("satisfiable\nlet L = (*o)\nlet M = ((o*)(*o))\nlet W = L join M", "4:16: " + UNDEFINED.format("M", "(*o)", "((o*)o)")),
    ("satisfiable\nlet L = (*o)\nlet W = (o(*o)) join  L join (o*) join *", "3:30: " + UNDEFINED.format("(o*)", "(*(*o))", "(o(*o))")),
    ("satisfiable\nlet L = (*o) join o join (*o) x", "2:26: " + UNDEFINED.format("(*o)", "(*o)", "(*o)")),
    (f"satisfiable\nlet L = (o(o(o(o(o*))))) join {LONGEST_TREE}",
     "2:31: " + UNDEFINED.format(LONGEST_TREE[:40] + "...", "(o(o(o(o(o*)))))", "(o(o(o(o(o*)))))")),
    (f"satisfiable\nlet L = {LONGEST_TREE} join {LONGEST_TREE}", "2:109: " + UNDEFINED.format(LONGEST_TREE[:40] + "...", LONGEST_TREE, LONGEST_TREE)),
    # Trees with spaces inside.
    ("satisfiable\nlet L = ((*o) join (o*))", "2:14: no tree text: a join stands without brackets round it"),
    (CLAUSE + "((*o) join (o*)) is a", "3:6: no tree text: a join stands without brackets round it"),
    ("satisfiable\nlet L = (* o)", "2:11: tree text has no spaces: write '(*o)'"),
    (CLAUSE + "a is (o *)", "3:8: tree text has no spaces: write '(o*)'"),
    (CLAUSE + "( o\t(* o) ) is not a", "3:2: tree text has no spaces: write '(o(*o))'"),
    (CLAUSE + "a is (o o)", "3:8: tree text has no spaces"),
    (CLAUSE + "a is (o x)", "3:8: tree text has no spaces"),
    (CLAUSE + "a join (o is b", "3:10: no tree text: it ends before the tree does"),
    (CLAUSE + "a is ((o *)", "3:9: no tree text: it ends before the tree does"),
    (CLAUSE + "a is " + "( " * 5000, "3:7: no tree text: it ends before the tree does"),
    (CLAUSE + "a is *o", "3:7: no tree text: the tree ends before this character"),
    (CLAUSE + "a is )", "3:6: no tree text: '(', 'o' or '*' is due here, not ')'"),
    # Trees that are too long: nothing can stand at the 95th character.
    (CLAUSE + "a is " + "(" * 5000, f"3:100: {TOO_LONG}"),
    (CLAUSE + "a is " + "(" * 94 + "\u00e4", f"3:100: {TOO_LONG}"),
    (CLAUSE + "a is " + "(" * 94, "3:100: no tree text: it ends before the tree does"),
    (CLAUSE + "a is " + "(" * 93 + "\u00e4", "3:99: no tree text: '(', 'o' or '*' is due here, not '\u00e4'"),
    (CLAUSE + f"a is {LONGEST_TREE}o", "3:100: no tree text: the tree ends before this character"),
    (CLAUSE + "a is " + LONG_TREE.format("*"), f"3:100: {TOO_LONG}"),
    ("satisfiable\nlet L = " + LONG_TREE.format("o"), f"2:103: {TOO_LONG}"),
    ("satisfiable\nlet L = " + LONG_TREE.format(" *"), "2:73: tree text has no spaces"),
    ("satisfiable\nlet L = (oo)", "2:9: a pair of two equal leaves must be folded: write 'o' for '(oo)'"),
    (CLAUSE + "a is (o(*(**)))", "3:10: a pair of two equal leaves must be folded: write '*' for '(**)'"),
    (CLAUSE + "a is ((((((oo)o)o)o)o)o)", "3:11: a pair of two equal leaves must be folded: write 'o' for '(oo)'"),
    (CLAUSE + "a is ((((((*o)o)o)o)o)o)", "3:11: the tree is too tall: at most 5 pairs may stand one in the other"),
    ("satisfiable\nlet L = (*(o(o(o(o(*(*o)))))))", "2:19: the tree is too tall: at most 5 pairs may stand one in the other"),
    # Clauses.
    (CLAUSE + "a", f"3:2: {VERBS} is due here, and the line ends"),
    (CLAUSE + "a b", f"3:3: {VERBS} is due here, not 'b'"),
    (CLAUSE + "a is", "3:5: a name or a tree is due here, and the line ends"),
    (CLAUSE + "a is not", "3:9: a name or a tree is due here, and the line ends"),
    (CLAUSE + "a is is", "3:6: a name or a tree is due here, not 'is'"),
    (CLAUSE + "a is b!", "3:6: a name or a tree is due here, not 'b!'"),
    (CLAUSE + "a = b", f"3:3: {VERBS} is due here, not '=': write 'is' for it"),
    (CLAUSE + "a join", "3:7: a name or a tree is due here, and the line ends"),
    (CLAUSE + "a join b", f"3:9: {VERBS} is due here, and the line ends"),
    (CLAUSE + "a join b c", f"3:10: {VERBS} is due here, not 'c'"),
    (CLAUSE + "not a join b c", "3:14: 'is' is due here, not 'c'"),
    (CLAUSE + "a join b = c", f"3:10: {VERBS} is due here, not '=': write 'is' for it"),
    # Joins inside a clause.
    (CLAUSE + "a join b join", "3:14: a name or a tree is due here, and the line ends"),
    (CLAUSE + "a join b join is c", "3:15: a name or a tree is due here, not 'is'"),
    (CLAUSE + "a join b join c", f"3:16: {VERBS} is due here, and the line ends"),
    (CLAUSE + "a join b is c join", "3:19: a name or a tree is due here, and the line ends"),
    (CLAUSE + "a join b is c join d", "3:20: nothing is named 'd': " + UNKNOWN.format("d")),
    (CLAUSE + "a join b is c join a b", "3:22: the end of the line is due here, not 'b'"),
    (CLAUSE + "c is a join b join a", "3:8: a join stands before 'is': write 'a join b join a is c'"),
    (CLAUSE + "a join b join c is not a", "3:20: " + NOT_INSIDE),
    (CLAUSE + "a join b is not c join a", "3:13: the negation of a join is written 'not a join b is c'"),
    (CLAUSE + "not a join b join c is a", "3:14: " + NOT_INSIDE),
    (CLAUSE + "not a join b is c join a", "3:19: " + NOT_INSIDE),
    (CLAUSE + "not a join b join", "3:14: " + NOT_INSIDE),
    ("satisfiable\nfree may with\nnot may join with join may is with", "3:19: " + NOT_INSIDE),
    (CLAUSE + "not c is a join b", "3:7: the negation of an equality is written 'a is not b'"),
    (CLAUSE + "not", "3:4: a name or a tree is due here, and the line ends"),
    (CLAUSE + "not a b", "3:7: 'join' is due here, not 'b'"),
    (CLAUSE + "not a is b", "3:7: the negation of an equality is written 'a is not b'"),
    # What a share may do, and what it may be held together with.
    (CLAUSE + "a may", "3:6: 'write' or 'read' is due here, and the line ends"),
    (CLAUSE + "a may fly", "3:7: 'write' or 'read' is due here, not 'fly'"),
    (CLAUSE + "a may not fly", "3:7: 'write' or 'read' is due here, not 'not'"),
    (CLAUSE + "a join b may", "3:13: 'write' or 'read' is due here, and the line ends"),
    (CLAUSE + "a may write b", "3:13: the end of the line is due here, not 'b'"),
    (CLAUSE + "a may read is b", "3:12: the end of the line is due here, not 'is'"),
    (CLAUSE + "a join b is c may write", "3:15: the end of the line is due here, not 'may'"),
    (CLAUSE + "a not may fly", "3:3: 'may' is due here, not 'not'"),
    (CLAUSE + "a not is b", f"3:3: {VERBS} is due here, not 'not'"),
    (CLAUSE + "may write", "3:1: nothing is named 'may': " + UNKNOWN.format("may")),
    (CLAUSE + "a with", "3:7: a name or a tree is due here, and the line ends"),
    (CLAUSE + "a with d", "3:8: nothing is named 'd': " + UNKNOWN.format("d")),
    (CLAUSE + "a with b is c", "3:10: the end of the line is due here, not 'is'"),
    (CLAUSE + "a with b not", "3:10: the end of the line is due here, not 'not'"),
    (CLAUSE + "a with b join c with a", "3:17: 'with' stands once in a clause: of three shares that are held together write 'a join b with c'"),
    (CLAUSE + "a with (oo)", "3:8: a pair of two equal leaves must be folded: write 'o' for '(oo)'"),
    (CLAUSE + "a may not write", "3:3: 'may write' has no negation of its own: write 'a is not *'"),
    (CLAUSE + "not  a may write", "3:8: 'may write' has no negation of its own: write 'a is not *'"),
    (CLAUSE + "(*o) may not read", "3:6: 'may read' has no negation of its own: write '(*o) is o'"),
    (CLAUSE + "not c may read", "3:7: 'may read' has no negation of its own: write 'c is o'"),
    (CLAUSE + "a not may write", "3:3: 'may write' has no negation of its own: write 'a is not *'"),
    (CLAUSE + "a join b may not write", f"3:10: 'may write' has no negation of its own: {OF_A_JOIN} 't is not *'"),
    (CLAUSE + "not a join b may read", f"3:14: 'may read' has no negation of its own: {OF_A_JOIN} 't is o'"),
    (CLAUSE + "not a join b join c may read", f"3:21: 'may read' has no negation of its own: {OF_A_JOIN} 't is o'"),
    (CLAUSE + "not a join b join c join a may write", f"3:28: 'may write' has no negation of its own: {OF_A_JOIN} 't is not *'"),
    (CLAUSE + "not a join b join d may read", "3:19: nothing is named 'd': " + UNKNOWN.format("d")),
    (CLAUSE + "not a with b", f"3:7: {NOT_WITH}"),
    (CLAUSE + "not a join b with c", f"3:14: {NOT_WITH}"),
    (CLAUSE + "not a join b join c with a", f"3:21: {NOT_WITH}"),
    (CLAUSE + "a not with b", f"3:3: {NOT_WITH}"),
    (CLAUSE + "a join b join c not with a", f"3:17: {NOT_WITH}"),
    (CLAUSE + "a with not b", f"3:3: {NOT_WITH}"),
    (CLAUSE + "a join b with not b join c", f"3:10: {NOT_WITH}"),
    # Two negations.
    (CLAUSE + "not a may not write", f"3:7: {TWICE} 'a may write'"),
    (CLAUSE + "not (*o)  may not read b", f"3:11: {TWICE} '(*o) may read'"),
    (CLAUSE + "not a join  b may not write", f"3:15: {TWICE} 'a join b may write'"),
    (CLAUSE + "not a join b join c may not read", f"3:21: {TWICE} 'a join b join c may read'"),
    (CLAUSE + "not a not may read", f"3:7: {TWICE} 'a may read'"),
    (CLAUSE + "a not may not write", f"3:3: {TWICE} 'a may write'"),
    (CLAUSE + "not a not with b", f"3:7: {TWICE} 'a with b'"),
    (CLAUSE + "not a with not b", f"3:7: {TWICE} 'a with b'"),
    (CLAUSE + "a not with not b", f"3:3: {TWICE} 'a with b'"),
    # Three, which are as one.
    (CLAUSE + "not a not may not read", "3:7: 'may read' has no negation of its own: write 'a is o'"),
    (CLAUSE + "not a not with not b", f"3:7: {NOT_WITH}"),
    # A join stands before 'is'.
    (CLAUSE + "c is a join b", "3:8: a join stands before 'is': write 'a join b is c'"),
    (CLAUSE + "c is not  a join b", "3:13: a join stands before 'is': write 'not a join b is c'"),
    (CLAUSE + "(*o) is a join", "3:11: a join stands before 'is': write 'a join b is c'"),
    (CLAUSE + "a join b is not c", "3:13: the negation of a join is written 'not a join b is c'"),
    # Slips of whoever writes a first text.
    ("Satisfiable\nfree a", "1:1: write 'satisfiable' for 'Satisfiable'"),
    ("entails:\nfree a", "1:1: write 'entails' for 'entails:'"),
    ("Free a", "1:1: 'satisfiable' or 'entails' is due here, not 'Free'"),
    ("satisfiable\nFREE a", "2:1: write 'free' for 'FREE'"),
    ("entails\nfree a\na is *\nthen:\na is not o", "4:1: write 'then' for 'then:'"),
    ("entails\nfree a\na is *\nentails\na is not o",
     "4:1: the kind of question stands in the first line alone: before the second system write 'then'"),
    ("entails\nfree a\na is * then a is not o",
     "3:8: the end of the line is due here, not 'then': it stands on a line of its own"),
    ("satisfiable\nfree a,b", "2:6: names are parted by spaces: write 'a b' for 'a,b'"),
    ("satisfiable\nfree a;b,", "2:6: names are parted by spaces: write 'a b' for 'a;b,'"),
    ("satisfiable\nfree a,7", f"2:6: {NAME} is due here, not 'a,7'"),
    (CLAUSE + "a is full", "3:6: 'full' is no share: write 'o' for the empty one, '*' for the full one"),
    (CLAUSE + "a is not empty", "3:10: 'empty' is no share: write 'o' for the empty one, '*' for the full one"),
    (CLAUSE + "a + b is c", f"3:3: {VERBS} is due here, not '+': write 'join' for it"),
    (CLAUSE + "a != b", f"3:3: {VERBS} is due here, not '!': write 'is not' for '!='"),
    (CLAUSE + "a can write", f"3:3: {VERBS} is due here, not 'can': write 'may' for it"),
    # Order, and the two systems.
    ("entails", f"1:8: {NO_SECOND}"),
    ("entails\nfree a\na is *", f"3:7: {NO_SECOND}"),
    ("entails\nfree a\nown b\nif\na is * # then\n\n", f"7:1: {NO_SECOND}"),
    (CLAUSE + "a is b\nfree d", "4:1: 'free' must stand before the first clause"),
    (CLAUSE + "a is b\nown d", "4:1: 'own' must stand before the first clause"),
    (CLAUSE + "a is b\nlet L = o", "4:1: 'let' must stand before the first clause"),
    (CLAUSE + "own d", "3:1: own variables need a question that asks 'entails': write that in the first line"),
    (CLAUSE + "a is b\n then", "4:2: a second system needs a question that asks 'entails': write that in the first line"),
    ("entails\nown d\nd is d", "3:1: 'd' is an own variable, and they stand in the second system alone: write 'then' before this clause, or make 'd' free"),
    ("entails\nfree a\nown d\nthen\nd is d\nif\na join d is a",
     "7:8: 'd' is an own variable, and they stand in the second system alone: write 'then' before this clause, or make 'd' free"),
    ("entails\nfree a\nown d\na with d",
     "4:8: 'd' is an own variable, and they stand in the second system alone: write 'then' before this clause, or make 'd' free"),
    # What an editor shows otherwise than it is read: a clause that seems to stand on a line of its own, and is in a comment.
    ("satisfiable\nfree a\na is o # so\ra is not o", "3:12: a line break (U+000D) stands here that is no line feed: end each line with a line feed"),
    ("satisfiable\nfree a\n# so\x85a is not o", "3:5: a line break (U+0085) stands here that is no line feed: end each line with a line feed"),
    ("satisfiable\nfree a\u2028a is not o", "2:7: a line break (U+2028) stands here that is no line feed: end each line with a line feed"),
    ("satisfiable\x0cfree a", "1:12: a line break (U+000C) stands here that is no line feed: end each line with a line feed"),
    ("satisfiable\nfree a\na is o #\u202e", "3:9: a character (U+202E) stands here that turns the order of what is shown: remove it"),
    # Control characters, in comments too: a terminal obeys some of them. A tab is none of these.
    ("satisfiable\nfree a\t#\ta\na is o # \x1b[1A\x1b[2K", f"3:10: {CONTROL.format('001B')}"),
    ("satisfiable\nfree a\na is o # not \b\b\b\b", f"3:14: {CONTROL.format('0008')}"),
    ("satisfiable # \x07", f"1:15: {CONTROL.format('0007')}"),
    ("satisfiable\n# \x7f", f"2:3: {CONTROL.format('007F')}"),
    ("satisfiable\n# \x9b1A", f"2:3: {CONTROL.format('009B')}"),
    ("satisfiable\nfree \x1b", f"2:6: {CONTROL.format('001B')}"),
    ("satisfiable # \0", "1:15: a byte 00 stands here, so this is no UTF-8: save the text as UTF-8"),
    # Of several the first.
    ("satisfiable # \u202e \x1b \r \0",
     "1:15: a character (U+202E) stands here that turns the order of what is shown: remove it"),
    ("satisfiable # \x1b \u202e", f"1:15: {CONTROL.format('001B')}"),
    ("satisfiable # \u2066\nfree 7", "1:15: a character (U+2066) stands here that turns the order of what is shown: remove it"),
    # No text.
    ("\ufeffsatisfiable\nfree 7", "2:6: '7' starts with a digit, and a name does not: write '_7', for example"),
    ("\ufeffsatisfiable 7", "1:13: the end of the line is due here, not '7'"),
    ("satisfiable\n\ufefffree a", "2:1: a byte order mark stands here: it may only be the start of the file, so remove it"),
    ("\ufeff\ufeffsatisfiable", "1:1: a byte order mark stands here: it may only be the start of the file, so remove it"),
    ("s\0a\0t\0", "1:2: a byte 00 stands here, so this is no UTF-8: save the text as UTF-8"),
    ("satisfiable\nfree a\0", "2:7: a byte 00 stands here, so this is no UTF-8: save the text as UTF-8"),
    (b"\xff\xfes\0a\0", "1:1: the text is in UTF-16: save it as UTF-8"),
    (b"\xfe\xff\0s", "1:1: the text is in UTF-16: save it as UTF-8"),
    (b"\x01\0\0\0\0", "1:1: this is a question in bytes, and no text: './explain' makes a text of it"),
    (b"satisfiable\nfree \xe4", f"2:6: {NAME} is due here, not '\\xe4'"),
    ("entails\nfree a\nthen a is a", "3:6: the end of the line is due here, not 'a'"),
]


def lines(*parts):
    return "".join(part + "\n" for part in parts)


def names(count, letter="v"):
    return " ".join(f"{letter}{number}" for number in range(count))


def trees(count):
    """Distinct trees of height 5: one full leaf each."""
    def one_leaf(number, height):
        if height == 0:
            return "*"
        half = 1 << (height - 1)
        below = one_leaf(number % half, height - 1)
        return f"({below}o)" if number < half else f"(o{below})"
    return [one_leaf(number, 5) for number in range(32)][:count] + ["o", "*"][:max(0, count - 32)]


def lets(count):
    return lines(*(f"let c{number} = {tree}" for number, tree in enumerate(trees(count))))


def clauses(count, clause):
    return lines(*[clause] * count)


# Texts at the edge of a limit; a line more than each is refused so.
EDGES = [
    ("12 free variables", lines("satisfiable", f"free {names(12)}"), "free more", "3:6: 13 variables: there may be 12, free and own together"),
    ("12 own variables", lines("entails", "then", f"own {names(12)}"), "own more",
     "4:5: 13 variables: there may be 12, free and own together"),
    ("7 and 5 variables", lines("entails", "then", f"free {names(7)}", f"own {names(4, 'w')}"), "own last more",
     "5:10: 13 variables: there may be 12, free and own together"),
    ("12 variables with those of joins", lines("satisfiable", f"free {names(10)}", "v0 join v1 join v2 join v3 is v4"), "v1 join v2 is v3 join v4",
     "4:1: the joins inside this clause need 1 variable more, which makes 13: there may be 12, free and own together"),
    ("12 variables with those of the second", lines("entails", f"own {names(11)}", "then", "v0 join v1 join v2 is v3"), " v1 join v2 join o is v3 join v4",
     "5:2: the joins inside this clause need 2 variables more, which makes 14: there may be 12, free and own together"),
    ("64 joins, the last inside a clause", "satisfiable\nfree a\n" + clauses(62, "a join a is a") + "a join a is a join a\n", "a join a join a is a",
     "66:1: a 65th positive clause in the first system: there may be 64"),
    ("12 variables with those of 'with'", lines("satisfiable", f"free {names(9)}", "v0 join v1 with v2 join v3", "v1 join v2 may read"), "v1 join v2 may write",
     "5:1: the joins inside this clause need 1 variable more, which makes 13: there may be 12, free and own together"),
    ("64 positive clauses, old and new", "entails\nfree a\nthen\n" + clauses(62, "a is a") + "a may write\na with a\n", "a join a may read",
     "68:1: a 65th positive clause in the second system: there may be 64"),
    ("64 shares that may write", "satisfiable\nfree a\n" + clauses(64, "a may write"), "a with a",
     "67:1: a 65th positive clause in the first system: there may be 64"),
    ("64 that are held together", "satisfiable\nfree a\n" + clauses(64, "a with a"), "a may write",
     "67:1: a 65th positive clause in the first system: there may be 64"),
    ("31 disequations, old and new", "entails\nfree a\nthen\n" + clauses(30, "a may read") + "a is not o\n", "a may read",
     "35:1: a 32nd disequation in the second system: there may be 31"),
    ("31 shares that may read", "satisfiable\nfree a\n" + clauses(31, "a may read"), "a is not o",
     "34:1: a 32nd disequation in the first system: there may be 31"),
    ("32 constants", "satisfiable\n" + lets(32), "let more = o", "34:12: a 33rd constant: there may be 32"),
    ("32 constants, the last a join", "satisfiable\n" + lets(31) + f"let all = {' join '.join(names(31, 'c').split())}\n", "let more = c1 join c2",
     "34:12: a 33rd constant: there may be 32"),
    ("32 constants, one in a clause", "satisfiable\n" + lets(31) + "o is o\n", "o is *", "34:6: a 33rd constant: there may be 32"),
    ("32 constants in clauses", "satisfiable\n" + lines(*(f"{tree} is {tree}" for tree in trees(32))), "not o join o is o",
     "34:5: a 33rd constant: there may be 32"),
    ("64 joins", "satisfiable\nfree a\n" + clauses(64, "a join a is a"), "a is a",
     "67:1: a 65th positive clause in the first system: there may be 64"),
    ("64 positive clauses of the second", "entails\nfree a\nthen\n" + clauses(64, "a is a"), "  a join a is a",
     "68:3: a 65th positive clause in the second system: there may be 64"),
    ("31 disequations", "satisfiable\nfree a\n" + clauses(31, "a is not o"), "not a join a is a",
     "34:1: a 32nd disequation in the first system: there may be 31"),
    ("31 disequations of the second", "entails\nfree a\nthen\n" + clauses(31, "not a join a is a"), "a is not a",
     "35:1: a 32nd disequation in the second system: there may be 31"),
    ("height 5", "satisfiable\n" + "let low = (((((*o)o)o)o)o)\n", "let lower = ((((((*o)o)o)o)o)o)",
     "3:18: the tree is too tall: at most 5 pairs may stand one in the other"),
]

# Everything at once: the longest question there is.
LONGEST = lines("entails", f"free {names(7)}", f"own {names(5, 'w')}") + lets(32) + clauses(64, "v0 join v1 is v2") + \
    clauses(31, "not v0 join v1 is v3") + "then\n" + clauses(64, "v0 join v1 is v2") + clauses(31, "not v0 join w1 is v3")

# Bytes that are no question, and what explaining them says: the refusal, what is wrong here, and the bytes around.
REFUSED = [
    ("", "1 at 0", "a question starts with 01, and there is no byte", "[]"),
    ("03 00", "1 at 0", "a question starts with 01, and it starts with 03", "[03] 00"),
    ("01 00 00", "2 at 0", "command 01 has 3 operand bytes, and 2 of them are there", "[01 00 00]"),
    ("01 00 00 00", "2 at 4", "the bytes end where a command is due; the last command is 00", "01 00 00 00 []"),
    (f"01 00 00 00 {LEFT} 03 FF", "2 at 9", "command 03 has 4 operand bytes, and 1 of them are there", "... 00 00 00 03 FF FF 00 00 [03 FF]"),
    ("01 00 00 00 14 00 00 00 00", "3 at 4", "no command is 14", "01 00 00 00 [14] 00 00 00 00"),
    ("01 00 00 00 01 00 00 00 00", "4 at 4", "there is a head already", "01 00 00 00 [01 00 00 00] 00"),
    (f"01 00 01 00 12 00 00 {FULL} 00", "4 at 7", "constants stand before the first clause", "01 00 01 00 12 00 00 [03 FF FF FF FF] 00"),
    ("01 02 00 00 00", "5 at 0", "kind 2: it is 0 (satisfiable) or 1 (entails)", "[01 02 00 00] 00"),
    ("01 01 FF 0D 00", "5 at 0", "268 variables: there may be 12, free and own together", "[01 01 FF 0D] 00"),
    ("01 00 0B 01 00", "5 at 0", "own variables need a question that asks 'entails'", "[01 00 0B 01] 00"),
    ("01 00 00 00 " + f"{LEFT} " * 33 + "00", "6 at 164", "a 33rd constant: there may be 32",
     "... FF 00 00 03 FF FF 00 00 [03 FF FF 00 00] 00"),
    ("01 00 01 00 " + "10 00 00 00 " * 65 + "00", "7 at 260", "a 65th positive clause in the first system: there may be 64",
     "... 10 00 00 00 10 00 00 00 [10 00 00 00] 00"),
    ("01 01 01 00 " + "23 00 00 " * 32 + "00", "7 at 97", "a 32nd disequation in the second system: there may be 31",
     "... 00 00 23 00 00 23 00 00 [23 00 00] 00"),
    ("01 00 01 00 12 00 01 00", "8 at 4", "term 01 names no variable of the head and no constant defined", "01 00 01 00 [12 00 01] 00"),
    (f"01 00 01 00 {FULL} 13 00 21 12 00 00 12 00 00 12 00 00 00", "8 at 9",
     "term 21 names no variable of the head and no constant defined", "... 00 01 00 03 FF FF FF FF [13 00 21] 12 00 00 12 00 00 12 00 ..."),
    ("01 01 01 01 20 01 01 01 10 00 00 01 00", "8 at 8", "an own variable in a clause of the first system",
     "01 01 01 01 20 01 01 01 [10 00 00 01] 00"),
    ("01 00 01 00 22 00 FF 00", "9 at 4", "a second system needs a question that asks 'entails'", "01 00 01 00 [22 00 FF] 00"),
    # Commands 30 to 32 and 38 to 3A; those beside them are unknown as before.
    *((f"01 01 01 00 {byte:02X} 00 00 00", "3 at 4", f"no command is {byte:02X}", f"01 01 01 00 [{byte:02X}] 00 00 00")
      for byte in [0x2F, *range(0x33, 0x38), *range(0x3B, 0x41)]),
    ("01 00 01 00 30", "2 at 4", "command 30 has 1 operand byte, and 0 of them are there", "01 00 01 00 [30]"),
    ("01 00 01 00 31", "2 at 4", "command 31 has 1 operand byte, and 0 of them are there", "01 00 01 00 [31]"),
    ("01 00 01 00 32 00", "2 at 4", "command 32 has 2 operand bytes, and 1 of them are there", "01 00 01 00 [32 00]"),
    ("01 00 01 00 38", "2 at 4", "command 38 has 1 operand byte, and 0 of them are there", "01 00 01 00 [38]"),
    ("01 00 01 00 39", "2 at 4", "command 39 has 1 operand byte, and 0 of them are there", "01 00 01 00 [39]"),
    ("01 00 01 00 3A FF", "2 at 4", "command 3A has 2 operand bytes, and 1 of them are there", "01 00 01 00 [3A FF]"),
    (f"01 00 01 00 30 00 {FULL} 00", "4 at 6", "constants stand before the first clause", "01 00 01 00 30 00 [03 FF FF FF FF] 00"),
    ("01 00 01 00 " + "12 00 00 " * 63 + "30 00 32 00 00 00", "7 at 195", "a 65th positive clause in the first system: there may be 64",
     "... 12 00 00 12 00 00 30 00 [32 00 00] 00"),
    ("01 01 01 00 " + "39 00 " * 31 + "39 FF 00", "7 at 66", "a 32nd disequation in the second system: there may be 31",
     "... 39 00 39 00 39 00 39 00 [39 FF] 00"),
    ("01 00 01 00 30 01 00", "8 at 4", "term 01 names no variable of the head and no constant defined", "01 00 01 00 [30 01] 00"),
    ("01 00 0C 00 31 0C 00", "8 at 4", "term 0C names no variable of the head and no constant defined", "01 00 0C 00 [31 0C] 00"),
    ("01 00 0C 00 32 00 0D 00", "8 at 4", "term 0D names no variable of the head and no constant defined", "01 00 0C 00 [32 00 0D] 00"),
    ("01 00 01 00 32 00 20 00", "8 at 4", "term 20 names no variable of the head and no constant defined", "01 00 01 00 [32 00 20] 00"),
    ("01 01 01 01 32 01 00 00", "8 at 4", "an own variable in a clause of the first system", "01 01 01 01 [32 01 00] 00"),
    ("01 01 01 01 39 01 31 01 00", "8 at 6", "an own variable in a clause of the first system", "01 01 01 01 39 01 [31 01] 00"),
    ("01 00 01 00 38 FF 00", "9 at 4", "a second system needs a question that asks 'entails'", "01 00 01 00 [38 FF] 00"),
    ("01 00 01 00 39 00 00", "9 at 4", "a second system needs a question that asks 'entails'", "01 00 01 00 [39 00] 00"),
    ("01 00 01 00 3A 00 00 00", "9 at 4", "a second system needs a question that asks 'entails'", "01 00 01 00 [3A 00 00] 00"),
    ("01 00 00 00 00 00 01", "10 at 5", "the question ends with the byte before", "01 00 00 00 00 [00] 01"),
]

# Bytes, and the text that explains them.
EXPLAINED = [
    ("01 00 00 00 00", ["satisfiable"]),
    # An entailment has its line 'then', also without a clause of the second system.
    ("01 01 00 00 00", ["entails", "then"]),
    ("01 01 01 02 00", ["entails", "free v00", "own v01 v02", "then"]),
    ("01 01 01 01 12 00 00 00", ["entails", "free v00", "own v01", "v00 is v00", "then"]),
    # Short constants that the clauses name in order are written where they stand.
    (f"01 00 01 00 {LEFT} {FULL} 10 00 20 21 00", ["satisfiable", "free v00", "v00 join (*o) is *"]),
    # Named before an earlier one, there twice, long, or not named: they have names, and so have all before them.
    (f"01 00 01 00 {LEFT} {FULL} 10 00 21 20 00", ["satisfiable", "free v00", "let c00 = (*o)", "v00 join * is c00"]),
    (f"01 00 01 00 {LEFT} {FULL} 12 00 20 00", ["satisfiable", "free v00", "let c00 = (*o)", "let c01 = *", "v00 is c00"]),
    (f"01 00 01 00 {LEFT} {LEFT} {FULL} 12 20 22 00", ["satisfiable", "free v00", "let c00 = (*o)", "let c01 = (*o)", "c00 is *"]),
    (f"01 00 01 00 03 00 FF FF 00 {EMPTY} 12 00 20 13 00 21 00",
     ["satisfiable", "free v00", "let c00 = ((o*)(*o))", "v00 is c00", "v00 is not o"]),
    (f"01 00 01 00 {EMPTY} 12 00 00 00", ["satisfiable", "free v00", "let c00 = o", "v00 is v00"]),
    ("01 01 01 01 22 00 01 11 00 00 00 21 01 00 01 00",
     ["entails", "free v00", "own v01", "then", "v00 is v01", "if", "not v00 join v00 is v00", "then", "not v01 join v00 is v01"]),
    (f"01 01 01 01 {LEFT} 30 00 3A 01 00 31 20 39 01 32 00 00 38 01 00",
     ["entails", "free v00", "own v01", "v00 may write", "then", "v01 with v00", "if", "(*o) may read", "then", "v01 may read", "if", "v00 with v00", "then",
      "v01 may write"]),
]
