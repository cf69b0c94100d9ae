"""CSV that these programs did not write: the program, its arguments, its input (of two inputs the first is a file `first`, the second
standard input), the rows that it writes and the records of either input that are wrong (below zero: its quote is never closed), and the
delimiter. Rows are written out by hand, or computed by Python's csv."""
from reference import KINDS, MARK, answers, decoded, joined, report

# The examples of RFC 4180.
RFC = [
    b"aaa,bbb,ccc\r\nzzz,yyy,xxx\r\n",
    b"aaa,bbb,ccc\r\nzzz,yyy,xxx",
    b"field_name,field_name,field_name\r\naaa,bbb,ccc\r\nzzz,yyy,xxx\r\n",
    b'"aaa","bbb","ccc"\r\nzzz,yyy,xxx',
    b'"aaa","b\r\nbb","ccc"\r\nzzz,yyy,xxx',
    b'"aaa","b""bb","ccc"',
]
RFC_ROWS = [
    [["aaa", "bbb", "ccc"], ["zzz", "yyy", "xxx"]],
    [["aaa", "bbb", "ccc"], ["zzz", "yyy", "xxx"]],
    [["field_name", "field_name", "field_name"], ["aaa", "bbb", "ccc"], ["zzz", "yyy", "xxx"]],
    [["aaa", "bbb", "ccc"], ["zzz", "yyy", "xxx"]],
    [["aaa", "b\r\nbb", "ccc"], ["zzz", "yyy", "xxx"]],
    [["aaa", 'b"bb', "ccc"]],
]

NAMES = b"department,amount\n"
# A field with line feeds and quotes, longer than any buffer.
LONG_FIELD = b'"' + b'line ""of"" text\n' * 9000 + b'"'
# A table whose 20,001st row is wrong, at more than 64 KiB.
FAR = NAMES + b"a,1\n" * 20_000 + b"b,x\n" + b"c,2\n"
FAR_LINES = FAR.replace(b"\n", b"\r\n")
FAR_EMPTY = FAR_LINES.replace(b"a,1\r\n" * 100, b"a,1\r\n\r\n" * 100)
SUMS = NAMES + b'b,1\r\n"Smith, John",5\r\nb,+2\r\n'
STAFF = b"name,team,pay\nann,red,10\nbob,blue,7\ncid,red,5\n"


def grouped(words, text, out, wrong=(), delimiter=","):
    return "grouped_report", words, text, (out, [list(wrong)]), delimiter


def summed(words, text, *expected, **how):
    return grouped(["--sum", "2", *words], text, *expected, **how)


def computed(words, text, has_header=True):
    return "grouped_report", ["--sum", "2", *words], text, report(text, sums=[1], has_header=has_header), ","


def join(words, left, right, expected, delimiter=","):
    return "table_join", words, (left, right), expected, delimiter


def answered(words, index, queries, out=(), wrong=((), ()), delimiter=","):
    return "index_reader", words, (index, queries), (list(out), [list(numbers) for numbers in wrong]), delimiter


IDS = [10, 1, 11, 12, 2, 7, 3, 9, 4, 8, 6, 5]
TOWNS = b"id,town,price\n" + b"".join(b"%d,%s,%d0\n" % (it, [b"Bern", b"Basel"][it % 2], it) for it in IDS)
NO_AMOUNTS = [b".5", b"5.", b"1e3", b" 1", b"+-1", b"-", b"1.0000000001", b"18446744073709551616", b"1,5", b"\xff"]
# Behind a row that ends with a quote and `x`: the rest of a text, what the field has of it, and whether its quote is never closed.
OPEN = [
    *((tail.replace("\n", end), value.replace("\n", end), is_open) for end in ["\n", "\r\n", "\r"] for tail, value, is_open in [
        ("\n", "\n", True), ('\n"\n', "\n", False), ('\n"', "\n", False), ('"\n', "", False), ('""\n', '"\n', True),
        ("\ny,2\n\n", "\ny,2\n\n", True), ('\n"\n\n', "\n", False), ("\ny", "\ny", False),
    ]),
    ("", "", False),
]

# One key too high, and then 300 rows.
ZZZ = b"k,v\nzzz,1\n" + b"".join(b"%03d,x\n" % it for it in range(1, 301))
SHEET = b"date,temp\n10,x\n9,y\n"
# Rows of a hundred keys in no order, more than in a block.
MANY_ROWS = [
    b"k,n\n" + b"".join(b"%d,%d\n" % (place * step % 10_007 % 100, place) for place in range(count))
    for step, count in [(7919, 3000), (31, 200)]
]

TABLES = [
    # a left join with no table writes the rows again, in order
    *(join(["-n", "-k", "left"], text, b"", (sorted(rows), [[], []])) for text, rows in zip(RFC, RFC_ROWS)),
    *(
        join(["-n", "-k", "left"], b'a,"x' + tail.encode(), b"", ([["a", "x" + value]], [[-1] * is_open, []]))
        for tail, value, is_open in OPEN
    ),
    join(["-k", "left"], b'k,v\n1,"x\n2,y\n3,z\n', b"", ([["k", "v"], ["1", "x\n2,y\n3,z\n"]], [[-2], []])),
    join(["-k", "left"], b'k,"v\n', b'k,w\n1,2\n1,"3\n', ([["k", "v\n", "w"]], [[-1], [-3]])),
    join(["-d", "\\t"], b'id\tname\n1\t"Foo" Bar\n2\t"Heroes\n3\tx\n', b"id\ty\n1\t90\n2\t91\n3\t92\n",
         ([["id", "name", "y"], ["1", "Foo Bar", "90"], ["2", "Heroes\n3\tx\n", "91"]], [[-3], []]), "\t"),
    # keys by name, on both sides; where none is named, the first column, though another has the name `1`
    join(["--left-key", "town", "--right-key", "2"], b"id,town\n1,b\n", b"2,town\nb,a\n",
         ([["town", "id", "town_2"], ["b", "1", "a"]], [[], []])),
    join(["--right-key", "town"], b"town,n\nb,1\n", b"id,town\n7,b\n", ([["town", "n", "id"], ["b", "1", "7"]], [[], []])),
    join(["--left-key", "b", "--right-key", "d"], b"a,b\n1,x\n", b"c,d\n2,x\n", ([["b", "a", "c"], ["x", "1", "2"]], [[], []])),
    join([], b"x,1\na,b\n", b"y,1\na,c\n", ([["x", "1", "1_2"], ["a", "b", "c"]], [[], []])),
    join(["--left-key", "1"], b"x,1\na,b\n", b"y,1\nb,c\n", ([["1", "x", "1_2"], ["b", "a", "c"]], [[], []])),
    # several key columns, whose fields are compared one after another, and not what they are together
    join(["--left-key", "b", "--left-key", "1", "--right-key", "y", "--right-key", "x"],
         b"a,b,c\n2,k,p\n1,k,q\n1,j,r\n", b"x,y\n1,k\n3,k\n2,k\n", ([["b", "a", "c"], ["k", "1", "q"], ["k", "2", "p"]], [[], []])),
    join(["-n", "-k", "full", "--left-key", "1", "--left-key", "2", "--right-key", "1", "--right-key", "2"],
         b"ab,c,1\na,z,2\n", b"ab,,3\na,bc,4\n",
         ([["a", "bc", "", "4"], ["a", "z", "2", ""], ["ab", "", "", "3"], ["ab", "c", "1", ""]], [[], []])),
    # one key too high loses no row
    join([], ZZZ, ZZZ, ([["k", "v", "v_2"], *([f"{it:03}", "x", "x"] for it in range(1, 301)), ["zzz", "1", "1"]], [[], []])),
    # where the left file is empty the header has the key's name
    *(join(["-k", kind], b"", b"v,k\n1,2\n", ([["v", "k"], ["1", "2"]], [[], []])) for kind in ("full", "right")),
    *(join(["-k", kind, "--right-key", "k"], b"", b"v,k\n1,2\n", ([["k", "v"]], [[], []])) for kind in ("inner", "left")),
    *(join(["-k", kind], b"", b"k,v\n1,2\n", ([], [[], []])) for kind in ("semi", "anti")),
    *(join(["-k", kind], b"k,v\n", b"", ([["k", "v"]], [[], []])) for kind in KINDS),
    # no name stands twice
    join([], SHEET, SHEET, ([["date", "temp", "temp_2"], ["10", "x", "x"], ["9", "y", "y"]], [[], []])),
    join([], b"k,v,v_2\n", b"k,v,v,k\n", ([["k", "v", "v_2", "v_3", "v_4", "k_2"]], [[], []])),
    join(["-k", "anti"], b"k,v,v\n1,2,3\n", b"v\n", ([["k", "v", "v_2"], ["1", "2", "3"]], [[], []])),
    *(join(["-k", kind], text, text, joined(kind, text, text)) for kind in KINDS for text in (RFC[2], TOWNS)),
    # rows of many keys in any order, those of a key in their order
    *(join(["-k", kind], *MANY_ROWS, joined(kind, *MANY_ROWS)) for kind in KINDS),
    summed([], SUMS, [["department", "amount"], ["Smith, John", "5"], ["b", "3"]]),
    summed([], MARK + SUMS, [["department", "amount"], ["Smith, John", "5"], ["b", "3"]]),
    summed([], MARK + b'"department",amount\na,1\n', [["department", "amount"], ["a", "1"]]),
    summed([], NAMES + b'"",1\n"a ""b""",2\n,3\n', [["department", "amount"], ["", "4"], ['a "b"', "2"]]),
    # a quote in an unquoted field stands for itself, and text behind a closing quote belongs to the field
    summed([], NAMES + b'a"b,1\n"a"c,2\n', [["department", "amount"], ['a"b', "1"], ["ac", "2"]]),
    # a quote that is never closed takes the rest of the file, which then is no whole row, and is said
    summed([], NAMES + b'a,1\n"b,2\nc,3\n', [["department", "amount"], ["a", "1"]], [3, -3]),
    computed([], NAMES + LONG_FIELD + b",1\n" + LONG_FIELD + b",2\nx,y\n"),
    computed(["-n"], b"x,1\n" * 16_381 + b'"a\nb",2\n' * 10_000, has_header=False),
    # empty lines, and lines that end with a carriage return, or with both
    summed([], b"\n\n" + NAMES + b"\na,1\n\n\nb,2\n\n", [["department", "amount"], ["a", "1"], ["b", "2"]]),
    summed([], NAMES + b"\na,1\n\n\nb,x\n\n", [["department", "amount"], ["a", "1"]], [3]),
    summed([], b"department,amount\r\n\r\na,1\r\n\r\n\r\nb,x\r\nc\r\n", [["department", "amount"], ["a", "1"]], [3, 4]),
    summed([], b"a,b\n1,2\n\nx,q", [["a", "b"], ["1", "2"]], [3]),
    summed([], b'a,b\n\n\nx,"y\n', [["a", "b"]], [2, -2]),
    summed([], b"a,b\nx,1\r\nx,2\r\nx,q\r\n", [["a", "b"], ["x", "3"]], [4]),
    summed([], b"a,b\r\nx,1\nx,2\n\r\n\nx,q\n", [["a", "b"], ["x", "3"]], [4]),
    summed([], b"a,b\rx,1\r\rx,q\r", [["a", "b"], ["x", "1"]], [3]),
    summed([], b"department,amount\ra,1\rb,2\r", [["department", "amount"], ["a", "1"], ["b", "2"]]),
    # a wrong record far behind 64 KiB
    summed([], FAR, [["department", "amount"], ["a", "20000"], ["c", "2"]], [20_002]),
    summed([], FAR_LINES, [["department", "amount"], ["a", "20000"], ["c", "2"]], [20_002]),
    summed([], FAR_EMPTY, [["department", "amount"], ["a", "20000"], ["c", "2"]], [20_002]),
    # unequal lengths
    summed([], b"a,b,c\n1,2,3\n1,2\n1,2,3,4\n1\n1,3,x\n", [["a", "b"], ["1", "5"]], [3, 4, 5]),
    # one column, a header alone, and an empty file
    grouped(["--sum", "1"], b"n\n7\n7\n8\n", [["n", "sum_n"], ["7", "14"], ["8", "8"]]),
    grouped([], b"n\n7\n7\n8\n", [["n", "count"], ["7", "2"], ["8", "1"]]),
    summed([], NAMES, [["department", "amount"]]),
    summed([], b"department,amount", [["department", "amount"]]),
    summed([], b"", []),
    summed(["-n"], b"", []),
    summed([], MARK, []),
    # other delimiters
    summed(["-d", ";"], NAMES.replace(b",", b";") + b"a,b;1\nc;2\n", [["department", "amount"], ["a,b", "1"], ["c", "2"]], delimiter=";"),
    summed(["-d", "\\t"], NAMES.replace(b",", b"\t") + b'"a\tb"\t1\nc\t2\n', [["department", "amount"], ["a\tb", "1"], ["c", "2"]], delimiter="\t"),
    summed(["-d", "|"], NAMES.replace(b",", b"|") + b"a,b|1\n", [["department", "amount"], ["a,b", "1"]], delimiter="|"),
    summed(["-d", "|", "-n"], b'"a|b"|1\na;b|2\n', [["a;b", "2"], ["a|b", "1"]], delimiter="|"),
    summed(["--delimiter", "\t", "--no-headers"], b"a\t1\nb\t2\na\t3\n", [["a", "4"], ["b", "2"]], delimiter="\t"),
    # columns by number and by name, which may be a number
    grouped(["--by", "team", "--sum", "pay"], STAFF, [["team", "pay"], ["blue", "7"], ["red", "15"]]),
    grouped(["--by", "2", "--sum", "3"], STAFF, [["team", "pay"], ["blue", "7"], ["red", "15"]]),
    grouped(["--by", "x", "--sum", "2"], b"x,3,2\np,5,7\n", [["x", "2"], ["p", "7"]]),
    grouped(["--sum", "1960"], b"country,1960,1961\nMali,6.95,7\n", [["country", "1960"], ["Mali", "6.95"]]),
    grouped(["-n", "--sum", "3"], b"x,3,2\n", [["x", "2"]]),
    grouped(["--by", "a, b", "--sum", "n"], b'n,"a, b"\n1,x\n2,x\n', [["a, b", "n"], ["x", "3"]]),
    # bytes that are no UTF-8
    summed([], NAMES + b"\xff,1\n\xff,2\n", [["department", "amount"], ["\xff", "3"]]),
    summed([], NAMES + b"a,18446744073709551615\na,18446744073709551615\n", [["department", "amount"], ["a", "36893488147419103230"]]),
    # several columns, counts and runs
    grouped(["--by", "team", "--by", "1", "--sum", "pay", "--count", "--sum", "team"], b"name,team,pay\nb,2,1\na,10,\nb,2,.5\na,2,3\nb,2,4\n",
            [["team", "name", "count", "pay", "sum_team"], ["10", "a", "1", "", "10"], ["2", "a", "1", "3", "2"], ["2", "b", "2", "5", "4"]],
            [4]),
    grouped(["--runs", "--count", "--sum", "n"], b"k,n\nb,1\nb,\na,-0.5\na\na,x\na,0.5\nb,2\n",
            [["k", "count", "n"], ["b", "2", "1"], ["a", "2", "0"], ["b", "1", "2"]], [5, 6]),
    grouped(["--runs", "-n"], b"b\nb\na\nb\n", [["b", "2"], ["a", "1"], ["b", "1"]]),
    # fields are compared one after another, and not what they are together
    grouped(["-n", "--by", "1", "--by", "2"], b"ab,c\na,z\na,bc\nab,\n",
            [["a", "bc", "1"], ["a", "z", "1"], ["ab", "", "1"], ["ab", "c", "1"]]),
    # decimals are exact: prices, and what is no amount
    grouped(["--by", "symbol", "--sum", "price"], b"symbol,date,price\nMSFT,Jan,39.81\nAAPL,Jan,25.94\nMSFT,Feb,36.35\nAAPL,Feb,28.66\nIBM,Feb,\n",
            [["symbol", "price"], ["AAPL", "54.6"], ["IBM", ""], ["MSFT", "76.16"]]),
    summed(["-n"], b"a,0.1\na,0.2\nb,1.50\nb,0.50\nc,-1\nc,0.25\nd,5\nd,-5.000\ne,-18446744073709551615.999999999\ne,-0.000000001\n",
           [["a", "0.3"], ["b", "2"], ["c", "-0.75"], ["d", "0"], ["e", "-18446744073709551616"]]),
    *(summed(["-n"], b"a,1\na,%s\n" % text, [["a", "1"]], [2]) for text in NO_AMOUNTS),
    # ids in any order, and towns in turns
    grouped(["--by", "town", "--sum", "price"], TOWNS, [["town", "price"], ["Basel", "360"], ["Bern", "420"]]),
    # equal names: a place tells which is meant
    grouped(["--sum", "3"], b"date,temp,temp\nMay,1,2\n", [["date", "temp"], ["May", "2"]]),
    # an index in any order, and queries
    answered([], b"key,place\r\n5,51\r\n3,30\r\n5,50\r\n", b"5\n4\n3\n5",
             [["key", "place"], ["5", "51"], ["5", "50"], ["3", "30"], ["5", "51"], ["5", "50"]]),
    answered(["--key", "name"], b'at,"x, y",name\n7,"",Bo\n8,"\n",Al\n9,z,Bo\n', b"Al\nBo\nname\n",
             [["at", "x, y", "name"], ["8", "\n", "Al"], ["7", "", "Bo"], ["9", "z", "Bo"]]),
    # the names stay as they are, and the first column has the keys, though another has the name `1`
    answered([], b"k,1,1\na,b,c\nb,a,d\n", b"b\n", [["k", "1", "1"], ["b", "a", "d"]]),
    # several key columns
    answered(["--key", "b", "--key", "1"], b"a,b,c\n1,x,p\n11,,q\n1,x,r\n", b"x,1\n,11\n1,x\n1x,\n",
             [["a", "b", "c"], ["1", "x", "p"], ["1", "x", "r"], ["11", "", "q"]]),
    answered(["-n", "-d", ";"], b"1;2\n", b"1\n", [["1", "2"]], delimiter=";"),
    *(answered(words, b"", b"") for words in ([], ["-n"])),
    answered(["--key", "x", "--key", "y"], b"", b"1,2\n1\n", wrong=[[], [2]]),
    answered([], b"k,p\n", b"k\n1\n", [["k", "p"]]),
    answered([], b"k,p\n5,1\nno\n\xff,2\n5,3,\n", b"k\n\xff\n1,2\n5\n", [["k", "p"], ["\xff", "2"], ["5", "1"]], [[3, 5], [3]]),
    # one wrong first record loses nothing else
    answered(["-n"], b"1,2\n", b"1,2\n1\n", [["1", "2"]], [[], [1]]),
    answered([], b'k,p\n1,2\n"1', b'1\n1,"1\n', [["k", "p"], ["1", "2"]], [[3], [2, -2]]),
    answered([], ZZZ, b"".join(b"%03d\n" % it for it in range(300, 0, -1)), [["k", "v"], *([f"{it:03}", "x"] for it in range(300, 0, -1))]),
    *(
        ("index_reader", [], (MANY_ROWS[0], asked), answers(MANY_ROWS[0], asked), ",")
        for asked in [b"".join(b"%d\n" % it for it in range(-1, 120)), b"99\n7\n0\n7\n100\n"]
    ),
    ("run_length_coder", ["decode"], b'2\n3,97\n1,"98\n', (b"aaa", [[1, 3, -3]]), ","),
    # runs that another program wrote
    ("run_length_coder", ["decode"], b'"2","97"\r\n\r\n"1",98', (b"aab", [[]]), ","),
    ("run_length_coder", ["decode"], MARK + b"3,0\n", (b"\0\0\0", [[]]), ","),
]

# Columns that a table has not, or twice, the file, and what is said of them.
MANY = [f"c{place}" for place in range(1, 22)]
TWENTY = '", "'.join(MANY[:20])
OF_STAFF = '; the columns are "name", "team", "pay"'
K = (b"k,l\n", b"k,r\n")
WRONG_COLUMNS = [
    ("grouped_report", ["--by", "x"], STAFF, "-", f'no column is named "x"{OF_STAFF}'),
    ("grouped_report", ["--by", "team", "--sum", "4"], STAFF, "-", f"there is no column 4: the first record ends with column 3{OF_STAFF}"),
    ("grouped_report", ["--by", "0"], STAFF, "-", f"there is no column 0: the first one is 1{OF_STAFF}"),
    ("grouped_report", ["--by", "a"], b"a,b,a\n1,2,3\n", "-", 'two columns are named "a"; the columns are "a", "b", "a"'),
    ("grouped_report", ["--sum", "temp"], b"date,temp,temp\n", "-", 'two columns are named "temp"; the columns are "date", "temp", "temp"'),
    ("grouped_report", ["-n", "--by", "team"], STAFF, "-", 'no column is named "team"'),
    ("grouped_report", ["-n", "--sum", "4"], STAFF, "-", "there is no column 4: the first record ends with column 3"),
    *(
        ("grouped_report", ["--by", "x"], ",".join(names).encode(), "-", f'no column is named "x"; the columns are "{TWENTY}"{end}')
        for names, end in [(MANY[:20], ""), (MANY, ", ..")]
    ),
    ("grouped_report", ["--by", "x\x1b"], b"\xff\x1b," + b"a" * 41, "-", rf'no column is named "x\u{{1b}}"; the columns are "\xff\x1b", "{"a" * 40}"..'),
    # columns of the report
    *(
        ("grouped_report", words, b"n,m,n,sum_n,count\n1,2,3,4,5\n", "-", f'two columns of the report would be named "{name}"')
        for words, name in [
            (["--by", "m", "--by", "2"], "m"), (["--by", "1", "--by", "3"], "n"), (["--sum", "m", "--sum", "2"], "m"),
            (["--by", "m", "--sum", "1", "--sum", "3"], "n"), (["--by", "sum_n", "--by", "1", "--sum", "1"], "sum_n"),
            (["--by", "count"], "count"), (["--count", "--sum", "count"], "count"),
        ]
    ),
    ("table_join", ["--left-key", "x"], K, "first", 'no column is named "x"; the columns are "k", "l"'),
    ("table_join", ["--right-key", "l"], K, "-", 'no column is named "l"; the columns are "k", "r"'),
    ("table_join", ["--left-key", "k", "--left-key", "3", "--right-key", "k", "--right-key", "r"], K, "first",
     'there is no column 3: the first record ends with column 2; the columns are "k", "l"'),
    ("table_join", ["--right-key", "k"], (b"k\n", b"k,k\n"), "-", 'two columns are named "k"; the columns are "k", "k"'),
    ("index_reader", ["--key", "k", "--key", "x"], (b"k,p\n", b""), "first", 'no column is named "x"; the columns are "k", "p"'),
    ("index_reader", ["-n", "--key", "3"], (b"k,p\n", b"q\n"), "first", "there is no column 3: the first record ends with column 2"),
]
