"""What the programs write and say, written out by hand: the program, its arguments, its input, its status, what it writes, and what it
says on standard error. Of two inputs the first is a file `first`, and the second standard input."""
import pathlib

LEFT_OUT = b"%s: %s: record %d is left out: %s\n"


def said(program, *wrong, file=b"-"):
    """The complaints of a program about these records of a file: a number and why each is left out."""
    return b"".join(LEFT_OUT % (program.encode(), file, *record) for record in wrong)


def hundred(why, begin=1):
    """A hundred records from this one, each left out for this."""
    return [(number, why) for number in range(begin, begin + 100)]


def more(program, count, file="-"):
    """What a program says of so many records more than a hundred."""
    return f"{program}: {file}: records that are left out too: {count}\n".encode()


def tokens(*counts):
    """The lines of token_counter."""
    return b"runs of letters: %d\nruns of digits: %d\nruns of white space: %d\nruns of other bytes: %d\n" % counts


def below(number, key, before, file=b"first"):
    """What `table_join --sorted` says of this record, whose key is below the one before it."""
    return b"table_join: %s: record %d: its key %s is below %s before it; leave --sorted out\n" % (file, number, key, before)


NAMES = ["run_length_coder", "token_counter", "grouped_report", "table_join", "index_reader"]
RUNS = b"2,97\n0,98\n3\n\n1,256\nx,\xff\n18446744073709551616,1\n\xff\x1b,1\n1,98 \n1,\xff\n1,99\r\n3,100"


def no_count(shown):
    return b"its count %s is no number of 64 bits above 0" % shown


def no_byte(shown):
    return b"its byte %s is no number up to 255" % shown


def no_amount(shown):
    return b"its amount %s is no decimal number" % shown


WIDTH = b"its number of fields is 1, not 2"
NO_QUERY = b"its number of fields is 2, not 1"
WRONG_RUNS = said(
    "run_length_coder",
    (2, no_count(b'"0"')), (3, WIDTH), (4, no_byte(b'"256"')), (5, no_count(b'"x"')), (6, no_count(b'"18446744073709551616"')),
    (7, no_count(rb'"\xff\x1b"')), (8, no_byte(b'"98 "')), (9, no_byte(rb'"\xff"')),
)
# A value is shown up to 40 bytes, and no character of it is cut.
VALUES = ["a" * 40, "a" * 41, "a" * 39 + "é", "a" * 37 + "😀!", "\x1b[31mé\\", "é" * 20]
SHOWN = [f'"{"a" * 40}"', f'"{"a" * 40}"..', f'"{"a" * 39}"..', f'"{"a" * 37}"..', r'"\u{1b}[31mé\\"', f'"{"é" * 20}"']

TABLES = (b"k,l\na,1\nb,2\n", b"k,r\nb,3\nc,4\n")
ANY_ORDER = (b"k,l\nb,2\na,1\n", b"k,r\nc,4\nb,3\n")
# The records of one field are no rows, so it does not matter that they are low.
WRONG_TABLES = (b"k,l\na,1\n-\nb,2\n", b"k,r\nb,3\n-\nc,4")
WRONG_LINES = said("table_join", (3, WIDTH), file=b"first") + said("table_join", (3, WIDTH))
JOINED = {
    "inner": b"k,l,r\nb,2,3\n", "left": b"k,l,r\na,1,\nb,2,3\n", "right": b"k,l,r\nb,2,3\nc,,4\n", "full": b"k,l,r\na,1,\nb,2,3\nc,,4\n",
    "semi": b"k,l\nb,2\n", "anti": b"k,l\na,1\n",
}
NUMBERED = [b"%d,%d0\n" % (it, it) for it in range(1, 13)]

CASES = [
    ("run_length_coder", [], b"", 0, b"", b""),
    ("run_length_coder", [], b"aaab\0\0\xff", 0, b"3,97\n1,98\n2,0\n1,255\n", b""),
    ("run_length_coder", ["encode"], b"aaab", 0, b"3,97\n1,98\n", b""),
    ("run_length_coder", ["decode"], b"", 0, b"", b""),
    ("run_length_coder", ["decode"], b"3,97\n1,98\n2,0\n1,255\n", 0, b"aaab\0\0\xff", b""),
    ("run_length_coder", ["decode"], RUNS, 1, b"aacddd", WRONG_RUNS),
    ("run_length_coder", ["decode"], b"65537,7\n1,8\n", 0, b"\x07" * 65537 + b"\x08", b""),
    # more runs than are kept
    ("run_length_coder", ["decode"], b"1,97\n2,98\n" * 1500, 0, b"abb" * 1500, b""),
    ("token_counter", [], b"", 0, tokens(0, 0, 0, 0), b""),
    ("token_counter", [], b"let x1 = \xe9\xa5\xb0\xff;\r\n\0", 0, tokens(2, 1, 4, 3), b""),
    ("token_counter", [], b"aZ09 \t\n\x0b\x0c\r[`{@/:", 0, tokens(1, 1, 2, 2), b""),
    ("grouped_report", [], b"", 0, b"", b""),
    (
        "grouped_report", ["-n", "--sum", "2"], b"9,1\r\n7,18446744073709551615\n10,0\n9,2\n7,+1", 0, b"10,0\n7,18446744073709551616\n9,3\n", b"",
    ),
    (
        "grouped_report", ["--sum", "m"], b"n,m\nb: c,1\n\xc3\xa9t\xc3\xa9,2\n,3\nB,4\nb: c,5\n a,6\nb,7\n", 0,
        b"n,m\n,3\n a,6\nB,4\nb,7\nb: c,6\n\xc3\xa9t\xc3\xa9,2\n", b"",
    ),
    (
        "grouped_report", ["--sum", "2"], b"n,m\n5,6\nno\n4294967296,3\n5,7\n1,\x00\n5,18446744073709551616\n5,1,1\n\xff,\xff\n", 1,
        b"n,m\n4294967296,3\n5,13\n",
        said(
            "grouped_report", (3, WIDTH), (6, no_amount(rb'"\0"')), (7, no_amount(b'"18446744073709551616"')),
            (8, b"its number of fields is 3, not 2"), (9, no_amount(rb'"\xff"')),
        ),
    ),
    (
        "grouped_report", ["--by", "b", "--by", "a", "--sum", "n", "--sum", "b"],
        b'a,b,n\nx,2,0.50\n"y""",1,10.6x\n"y""",1,1.50\n"y""",1,0.5\nx,2,\nz,,\n', 1,
        b'b,a,n,sum_b\n,z,,\n1,"y""",2,2\n2,x,0.5,4\n', said("grouped_report", (3, no_amount(b'"10.6x"'))),
    ),
    (
        "grouped_report", ["--runs", "--by", "2", "--count", "--sum", "1"], b"n,k\r\n1,b\r\n-2.25,b\r\n\r\n7,a\r\n,b", 0,
        b"k,count,n\nb,2,-1.25\na,1,7\nb,1,\n", b"",
    ),
    ("grouped_report", [], b"k\n\"\"\nb\n\"\"\n", 0, b"k,count\n,2\nb,1\n", b""),
    (
        "run_length_coder", ["decode"], "".join(f'"{value}",1\n' for value in VALUES).encode(), 1, b"",
        said("run_length_coder", *enumerate([no_count(it.encode()) for it in SHOWN], 1)),
    ),
    # a quote that is never closed is said behind all else
    (
        "table_join", ["-k", "left"], (b'k,l\n1,2\n0\n4,"5\n', b'k,r\n1,2\n"9\n'), 1, b'k,l,r\n1,2,2\n4,"5\n",\n',
        WRONG_LINES + b"table_join: first: the quote of record 4 is never closed\ntable_join: -: the quote of record 3 is never closed\n",
    ),
    (
        "grouped_report", [], b"k,l\n" + b"x\n" * 101 + b'a,"b\r\n', 1, b"k,count\na,1\n",
        said("grouped_report", *hundred(WIDTH, 2)) + more("grouped_report", 1)
        + b"grouped_report: -: the quote of record 103 is never closed\n",
    ),
    # more departments than stand in a block, each three times
    (
        "grouped_report", ["-n", "--sum", "2"], b"".join(b"%d,%d\n" % (place * 7919 % 5000, place) for place in range(15_000)), 0,
        b"".join(
            b"%d,%d\n" % (place * 7919 % 5000, 3 * place + 15_000)
            for place in sorted(range(5000), key=lambda place: str(place * 7919 % 5000))
        ), b"",
    ),
    # rows by department, and departments in order
    (
        "grouped_report", ["-n", "--sum", "2"], b"".join(b"%04d,1\n" % (row // 3 % 2000) for row in range(12_000)), 0,
        b"".join(b"%04d,6\n" % department for department in range(2000)), b"",
    ),
    # a record of 70 MB, which is read in more than a thousand reads
    ("grouped_report", ["--sum", "2"], b'n,m\n"' + b"x\n" * 35_000_000 + b'",5\n', 0, b'n,m\n"' + b"x\n" * 35_000_000 + b'",5\n', b""),
    # the rows of a key stay in their order
    ("table_join", ["-k", "full", "-n"], (b"b,3\na,1\nb,2", b"b,5\r\nc,6\nb,4"), 0, b"a,1,\nb,3,5\nb,3,4\nb,2,5\nb,2,4\nc,,6\n", b""),
    *(
        ("table_join", ["-k", kind, *more], tables, 0, rows, b"")
        for kind, rows in JOINED.items() for tables, more in [(TABLES, []), (ANY_ORDER, []), (TABLES, ["--sorted"])]
    ),
    *(
        ("table_join", ["--kind", kind, *more], WRONG_TABLES, 1, rows, WRONG_LINES)
        for kind, rows in JOINED.items() for more in [[], ["--sorted"]]
    ),
    ("table_join", [], TABLES, 0, JOINED["inner"], b""),
    ("table_join", ["-n"], (b"", b""), 0, b"", b""),
    ("index_reader", ["-n"], (b"3,30\n5,51\r\nx,7\n5,50\n", b"5\n4\n+3\nx\n5"), 0, b"5,51\n5,50\nx,7\n5,51\n5,50\n", b""),
    ("index_reader", [], (b"k,p\n1,2\n", b"k\n1\n"), 0, b"k,p\n1,2\n", b""),
    (
        "index_reader", ["--key", "p"], (b"k,p\n5,\xff\nno\n7,a\n5,1,1\n6,\xff\n", b'a,b\n\xff\n""\na\n'), 1, b"k,p\n5,\xff\n6,\xff\n7,a\n",
        said("index_reader", (3, WIDTH), (5, b"its number of fields is 3, not 2"), file=b"first") + said("index_reader", (1, NO_QUERY)),
    ),
    *((name, ["\udcff"], b"", 2, b"", b"%s: an argument is not UTF-8\n" % name.encode()) for name in NAMES),
    # of a hundred records of a file each is complained of, and the others are counted
    ("run_length_coder", ["decode"], b"x\n" * 100, 1, b"", said("run_length_coder", *hundred(WIDTH))),
    ("run_length_coder", ["decode"], b"x\n" * 1200, 1, b"", said("run_length_coder", *hundred(WIDTH)) + more("run_length_coder", 1100)),
    (
        "grouped_report", ["--sum", "2"], b"n,m\n" + b"x,x\n" * 101, 1, b"n,m\n",
        said("grouped_report", *hundred(no_amount(b'"x"'), 2)) + more("grouped_report", 1),
    ),
    (
        "table_join", [], (b"k,l\n" + b"x\n" * 101, b"k,r\n" + b"x\n" * 112), 1, b"k,l,r\n",
        said("table_join", *hundred(WIDTH, 2), file=b"first") + said("table_join", *hundred(WIDTH, 2)) + more("table_join", 1, "first") + more("table_join", 12),
    ),
    (
        "index_reader", [], (b"k,p\n" + b"x\n" * 102, b"x,1\n" * 101), 1, b"k,p\n",
        said("index_reader", *hundred(WIDTH, 2), file=b"first") + more("index_reader", 2, "first")
        + said("index_reader", *hundred(NO_QUERY)) + more("index_reader", 1),
    ),
]

ROWS = b"".join(b"%08d,a value of some length\n" % key for key in range(780_000))
HIGHER_ROWS = b"".join(b"%08d,a value of some length\n" % key for key in range(780_000, 1_560_000))
LONG_ROWS = b"".join(
    b"%06d,%s\n" % (key, b"v" * (60_000 if key * key % 1009 == 1 or key ** 3 % 4001 == 7 else key % 60))
    for key in range(100_000)
)

# A million rows in no order, and a thousand in order.
MILLION_ROWS, THOUSAND_ROWS = (
    b"".join(b"%06d,a value of some text\n" % key for key in keys)
    for keys in [(row * 611_953 % 1_000_000 for row in range(1_000_000)), range(0, 1_000_000, 1000)]
)
WIDE_ROWS = b"".join(b"%03d%s\n" % (key, b"," * 100_000) for key in range(200))
# Records of 1 MB that are left out between short rows.
LEFT_OUT_ROWS = (b"k,v\n" + b"x" * 1_000_000 + b"\n") * 100

# Seven departments in no order.
DEPARTMENTS = [row ** 3 % 1_000_003 % 7 for row in range(200_000)]

# Files that cannot be read, how they are named, and why.
UNREADABLE = [("miss\ning\x1b\x7fé", r"miss\ning\u{1b}\u{7f}é", 2), (".", ".", 21), ("", "", 2)]

# A file whose name has control characters, and why a record of it is left out.
NAMED_RECORDS = [
    (name, words, "a\r\nb\x85é", b"1,2\nno\n", rf"{name}: a\r\nb\u{{85}}é: record 2 is left out: {WIDTH.decode()}".encode() + b"\n")
    for name, words in [
        ("grouped_report", []), ("run_length_coder", ["decode"]), ("table_join", ["/dev/null"]),
        ("index_reader", ["--key", "1", "--key", "2", "/dev/null"]),
    ]
]

# What is said, and what is written, before standard input ends: the arguments, of which a file `first` may be one, that file, and what
# standard input has.
AT_ONCE = [
    ("run_length_coder", ["decode"], b"", b"no\n" * 3, said("run_length_coder", *hundred(WIDTH)[:3]), b""),
    ("grouped_report", ["--sum", "2"], b"", b"n,m\n" + b"a,no\n" * 3, said("grouped_report", *hundred(no_amount(b'"no"'), 2)[:3]), b""),
    ("table_join", ["first", "-"], b"k,l\n", b"k,r\n" + b"no\n" * 3, said("table_join", *hundred(WIDTH, 2)[:3]), b""),
    ("index_reader", ["first"], b"k,p\n", b"x,no\n" * 3, said("index_reader", *hundred(NO_QUERY)[:3]), b""),
    # how many more there are is said where the file ends
    (
        "index_reader", ["first"], b"k,p\n" + b"x\n" * 101, b"",
        said("index_reader", *hundred(WIDTH, 2), file=b"first") + more("index_reader", 1, "first"), b"",
    ),
    # also where a record is left out behind it
    ("index_reader", ["first"], b"k,p\na,1\n", b"a\nx,no\n", said("index_reader", (2, NO_QUERY)), b"k,p\na,1\n"),
    ("grouped_report", ["--runs"], b"", b"k,n\na,1\nb,2\nno\n", said("grouped_report", (4, WIDTH)), b"k,count\na,1\n"),
    # a run is written when another begins
    ("grouped_report", ["--runs", "--sum", "2"], b"", b"k,n\na,1\na,2\nb,3\n", b"", b"k,n\na,3\n"),
]

# An index, and queries with the rows that come while standard input stays open.
TURNS = [
    (
        [], b"k,p\nb,1\na,2\nb,3\n",
        [(b"b\n", b"k,p\nb,1\nb,3\n"), (b"c\n", b""), (b"a\r\n", b"a,2\n"), (b"b", b""), (b"\n\nb\n", b"b,1\nb,3\n" * 2)],
    ),
    (["-n", "--key", "2", "--key", "1"], b"b,1\na,2\n", [(b"2,a\n1,b\n", b"a,2\nb,1\n"), (b"1,a\n1,b", b""), (b"\n", b"b,1\n")]),
    # many at once, which a pipe holds
    (["-n"], b"1,x\n2,y\n", [(b"1\n", b"1,x\n"), (b"2\n" * 10_000, b"2,y\n" * 10_000), (b"1\n", b"1,x\n")]),
]

# Inputs whose reads fail at the end, where half of the output is written at least.
HALVES = [
    ("run_length_coder", [], b"aaab"),
    ("run_length_coder", ["decode"], b"1,97\n2,98\n" * 1500),
    ("grouped_report", ["--runs", "--sum", "2"], b"n,m\na,1\nb,2\nc,3\n"),
    ("table_join", ["--sorted"], TABLES),
    ("index_reader", [], (b"k,p\n1,2\n", b"1\n1\n")),
]

# Long inputs, what is written of them, and in how many MiB.
LONG = [
    ("run_length_coder", [], b"ab" * 4_000_000, b"1,97\n1,98\n" * 4_000_000, 8),
    ("run_length_coder", ["decode"], b"1,97\n1,98\n" * 5_100_000, b"ab" * 5_100_000, 8),
    # a run of 100 MB
    ("run_length_coder", ["decode"], b"100000000,97\n", b"a" * 100_000_000, 8),
    # more than ten million rows
    ("grouped_report", ["-n", "--sum", "2"], b"1,1\n2,1\n" * 5_100_000, b"1,5100000\n2,5100000\n", 8),
    # a row of each run: 14 MB if they were kept
    ("grouped_report", ["-n", "--runs"], ROWS, b"".join(b"%08d,1\n" % key for key in range(780_000)), 8),
    # more than 16 MB of rows if they were never folded
    (
        "grouped_report", ["-n", "--sum", "2"], b"".join(b"%d,1\n" % department for department in DEPARTMENTS),
        b"".join(b"%d,%d\n" % (department, DEPARTMENTS.count(department)) for department in range(7)), 8,
    ),
    # 44 MB if entries were folded late
    (
        "grouped_report", ["-n", "--sum", "2"], b"".join(b"%05d,1\n" % (row * 7919 % 20_000) for row in range(300_000)),
        b"".join(b"%05d,15\n" % department for department in range(20_000)), 24,
    ),
    *(("table_join", ["-n", *words], (b"k,v\n" * 2000, b"k,w\n" * 2000), b"k,v,w\n" * 4_000_000, 8) for words in [[], ["--sorted"]]),
    # 25 MB and 25 MB
    ("table_join", ["--sorted", "-k", "semi", "-n"], (ROWS, ROWS), ROWS, 8),
    # and of keys that lie apart: one table waits for the other
    ("table_join", ["--sorted", "-k", "anti", "-n"], (ROWS, HIGHER_ROWS), ROWS, 8),
    ("table_join", ["--sorted", "-k", "anti", "-n"], (HIGHER_ROWS, ROWS), HIGHER_ROWS, 8),
    # long lines now and then, 224 of 60 KB: records that are used again keep their room
    ("table_join", ["--sorted", "-k", "semi", "-n"], (LONG_ROWS, LONG_ROWS), LONG_ROWS, 8),
    *(
        ("table_join", [*words, "-n"], (LEFT_OUT_ROWS, b"k,w\n"), b"k,v,w\n" * 100, 40,
         said("table_join", *((number, WIDTH) for number in range(2, 202, 2)), file=b"first"))
        for words in [[], ["--sorted"]]
    ),
    # 160 MB of places of fields in each table
    ("table_join", ["--sorted", "-k", "semi", "-n"], (WIDE_ROWS, WIDE_ROWS), WIDE_ROWS, 32),
    # the rows of one key are kept
    ("table_join", ["--sorted", "-n"], (b"k,1\n" * 200_000, b"k,2\n"), b"k,1,2\n" * 200_000, 64),
    ("table_join", ["--sorted", "-n"], (b"k,1\n", b"k,2\n" * 200_000), b"k,1,2\n" * 200_000, 64),
    # tables in any order are kept whole
    ("table_join", ["-k", "semi", "-n"], (MILLION_ROWS, THOUSAND_ROWS), THOUSAND_ROWS, 240),
    ("index_reader", ["-n"], (MILLION_ROWS, b"000007\n" * 1000), b"000007,a value of some text\n" * 1000, 240),
    # 16 MB if all keys that are asked for were kept
    ("index_reader", ["-n"], (b"1,2\n", b"1\n" * 4_000_000), b"1,2\n" * 4_000_000, 8),
]

# Tables out of order under --sorted: the whole join of what stands before, how much of it is written at least, and what is said.
FAR = b"".join(b"%05d,1\n" % key for key in range(5000))
FALLS = [
    (
        [], (b"".join([b"id,l\n", *NUMBERED]), b"".join([b"id,r\n", *NUMBERED[:9]])),
        b"id,l,r\n" + b"".join(b"%d,%d0,%d0\n" % (it, it, it) for it in range(1, 10)), 0, below(11, b'"10"', b'"9"'),
    ),
    (["-n", "-k", "left"], (b"a,1\n", b"b,2\na,3\n"), b"a,1,\n", 0, below(2, b'"a"', b'"b"', b"-")),
    # a record that is left out is counted, and its key is not compared
    (
        ["-n"], (b"b,1\na\n\nb,2\nab,3\n", b"b,4\n"), b"b,1,4\nb,2,4\n", 0,
        said("table_join", (2, WIDTH), file=b"first") + below(4, b'"ab"', b'"b"'),
    ),
    (
        ["--left-key", "a", "--left-key", "b", "--right-key", "2", "--right-key", "1"], (b"b,a\n9,x\n10,x\n", b"k,l\n9,x\n"),
        b"a,b\nx,9\n", 0, below(3, b'"x", "10"', b'"x", "9"'),
    ),
    *(
        (["-n"], (before + b",1\n" + key + b",1\n", b""), b"", 0, below(2, shown, shown_before))
        for before, shown_before, key, shown in [
            (b"b" * 41, b'"%s"..' % (b"b" * 40), b"a" * 40, b'"%s"' % (b"a" * 40)),
            ('"é""\x1b"'.encode(), r'"é\"\u{1b}"'.encode(), b"ab\\", rb'"ab\\"'), (b"\xff\x1b", rb'"\xff\x1b"', b'""', b'""'),
        ]
    ),
    # far behind the first block
    (["-n"], (FAR + b"00999,1\n", FAR), FAR.replace(b",1", b",1,1"), 20_000, below(5001, b'"00999"', b'"04999"')),
    (
        ["-n", "-k", "right"], (FAR, FAR + b"04998,1\n" + FAR), FAR.replace(b",1", b",1,1"), 20_000,
        below(5001, b'"04998"', b'"04999"', b"-"),
    ),
]

# Orders and customers, and the prices of each town.
DATA = pathlib.Path(__file__).resolve().parent.parent / "crates" / "table_join" / "data"
IDS = [10, 1, 11, 12, 2, 7, 3, 9, 4, 8, 6, 5]
REPORTS_OF_JOINS = [
    (
        (
            b"id,price\n" + b"".join(b"%d,%d0.00\n" % (it, it) for it in IDS),
            b"id,town\n" + b"".join(b"%d,%s\n" % (it, [b"Bern", b"Basel"][it % 2]) for it in range(1, 13)),
        ),
        b"town,price\nBasel,360\nBern,420\n",
    ),
    # the line of the README
    (
        tuple((DATA / file).read_bytes() for file in ["orders.csv", "customers.csv"]),
        "town,price\nBasel,26.6\nBern,9.2\nZürich,16.5\n".encode(),
    ),
]


def one_key(count):
    """As many rows of one key and one row of it, and on the side of the one twice as many keys above."""
    above = b"".join(b"a%09d,1\n" % key for key in range(2 * count))
    return b",1\n" + above, b",1\n" * count + b"".join(b"m%06d,1\n" % key for key in range(1000))


# Arguments that are wrong, and what clap says of them. The files that they name do not exist.
WRONG_ARGUMENTS = [
    *((name, words, "unexpected argument '-x' found") for name in NAMES for words in (["-x"], ["nofile", "-x"])),
    *((name, ["nofile", "more"], "unexpected argument 'more' found") for name in NAMES[1:3]),
    ("run_length_coder", ["nofile", "more"], "the subcommand 'more' cannot be used with '[FILE]'"),
    ("run_length_coder", ["decode", "nofile", "more"], "unexpected argument 'more' found"),
    ("index_reader", [], "the following required arguments were not provided:\n  <INDEX>"),
    ("table_join", ["nofile"], "the following required arguments were not provided:\n  <RIGHT>"),
    *(
        ("table_join", ["-k", kind, "nofile", "nofile"],
         f"invalid value '{kind}' for '--kind <KIND>'\n  [possible values: inner, left, right, full, semi, anti]")
        for kind in ("rihgt", "outer", "INNER")
    ),
    *(
        ("table_join", [*words, "nofile", "nofile"], "as many --left-key as --right-key are wanted")
        for words in [
            ["--left-key", "1", "--left-key", "2"], ["--right-key", "1", "--right-key", "2"],
            ["--left-key", "a", "--right-key", "b", "--left-key", "c"],
        ]
    ),
    ("table_join", ["-", "-"], "both files cannot be standard input"),
    *(("index_reader", words, "both files cannot be standard input") for words in (["-"], ["-", "-"])),
    *((name, ["nofile", "nofile", "more"], "unexpected argument 'more' found") for name in ["table_join", "index_reader"]),
    ("index_reader", ["--place", "2", "nofile"], "unexpected argument '--place' found"),
    *(
        (name, ["-d", delimiter, "nofile", "nofile"][: 4 - (name == "grouped_report")],
         "the delimiter must be one ASCII character, and no quote, carriage return or line feed")
        for name in NAMES[2:] for delimiter in ("", "ab", '"', "\n", "\r", "é")
    ),
]
