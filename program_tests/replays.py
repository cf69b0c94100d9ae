"""Lines of `test_crate_answers` whose answers are not right, and that are no lines: were a wrong line taken for right, the stored lines
would show nothing. Half the code is 48 of `a`, and 49 of `b` and `c`; a group that was written is crossed out."""

FAMILIES = ["linear", "binary", "exponential", "text"]

WRONG = [
    *(f"linear reading halves FFF abc {groups} -" for groups in ["a,bc,a", "a,-,-", "a,b,-", "a,cb,-", "a,BC,-", "b,bc,-"]),
    *(f"linear writing halves F abc {left} -" for left in ["abc a", "### a", "#BC a", "#b a", "a## a"]),
    *(f"linear reading key FF abc a,bc {number}" for number in [0, 2, 3, 5, 8]),
    # of eight alike a scan asks seven questions, halving seven others three, and galloping five
    *(f"{family} reading halves F aaaaaaaa aaaaaaaa {count}" for family, count in [("linear", 3), ("binary", 5), ("exponential", 7)]),
    # of letters in turns a scan ends behind the first, halving behind the seventh, and galloping behind the third
    *(f"{family} reading equality F aeaeaeae {group} -" for family, group in [("linear", "aea"), ("binary", "a"), ("exponential", "aeaeaea")]),
]
for family in FAMILIES:
    for judge in ["halves", "key", "equality"]:
        WRONG += [f"{family} reading {judge} {end}" for end in ["FF ab b,a -", "FF ab a,- -", "L ab a -", "FL ab b,b -"]]
        WRONG += [f"{family} writing {judge} {end}" for end in ["FF ab ## b,a -", "FF ab ab a,b -", "L ab a# a -", "FL ab ## b,b -"]]
    WRONG += [f"{family} reading halves FF ab a,b {number}" for number in [0, 2, 2**64 - 1]]
for search, word in [("element", "aacd"), ("comparator", "aacd"), ("key", "aACd")]:
    WRONG += [f"search {search} {answer}" for answer in [f"b {word} found 2", f"c {word} absent 2", f"c {word} found 3", f"b {word} absent 1"]]

# What is said of them, and then of all types of lines.
NAMED = [f"line {number} is not the same: {line}" for number, line in enumerate(WRONG, 1)]
COUNTED = [f"{kind}: {sum(line.startswith(kind) for line in WRONG)} lines, 0 the same" for kind in [*FAMILIES, "search"]]

# A line, and what is said to be missing or wrong in it.
NO_LINES = [
    ("", "type"),
    ("linear read halves FF abc a,bc 2", "reading or writing"),
    ("linear reading half FF abc a,bc 2", "judge"),
    ("linear reading halves LF abc bc,a 2", "list of calls"),
    ("linear reading halves FF abc a 2", "list of answers"),
    ("linear reading halves FF abc a,bc two", "number of questions"),
    ("linear reading halves FF abc a,bc 2 3", "end"),
    ("search elements c aacd found 2", "search"),
    ("search element cc aacd found 2", "target"),
    ("search element c aacd finds 2", "answer"),
    ("search element c aacd found", "place"),
]
