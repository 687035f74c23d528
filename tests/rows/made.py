"""Rows whose scripts are too long, or too many, to be files here."""
import itertools

FIRST = b" STORAGE OBTAIN,LENGTH=1\n"
FIRST_ANSWER = b"0000001 RC=0 A=00006000 L=00000008\n"
TOO_LONG = b"vsm: too long\n"
LINES = 1_048_576
LINE_BYTES = 65_536
# A statement that the next line continues.
OPEN = b" STORAGE OBTAIN,LENGTH=1".ljust(71) + b"X\n"
OTHER_BYTES = [byte for byte in range(256) if byte != ord("\n")]


class Row:
    """A script in pieces, what else the program is given, and what it must print.

    `pieces`, if there are some, replace the whole output, which must have each of them. An endless script has no last
    piece.
    """

    def __init__(self, name, script, output, status=0, options=(), errors=b"", file=None, pieces=None, is_endless=False):
        self.name = name
        self.script = script
        self.output = output
        self.status = status
        self.options = list(options)
        self.errors = errors
        self.file = file
        self.pieces = pieces
        self.is_endless = is_endless


def too_long(name, script, output=b"", is_endless=False):
    return Row(name, script, output, 8, errors=TOO_LONG, is_endless=is_endless)


def with_long_line(asterisks, end):
    return [FIRST, b"*" * asterisks, end, b" BACK 0\n"]


def length_rows():
    """A line may have 65,536 bytes, its carriage return counted, and a script 1,048,576 lines."""
    behind = FIRST_ANSWER + b"0000003 KEPT=1\n"
    return [
        Row("line-of-65536-bytes", with_long_line(LINE_BYTES, b"\n"), behind),
        Row("line-of-65535-bytes-and-a-carriage-return", with_long_line(LINE_BYTES - 1, b"\r\n"), behind),
        too_long("line-of-65537-bytes", with_long_line(LINE_BYTES + 1, b"\n"), FIRST_ANSWER),
        too_long("line-of-65536-bytes-and-a-carriage-return", with_long_line(LINE_BYTES, b"\r\n"), FIRST_ANSWER),
        too_long("open-statement-before-a-line-too-long", [FIRST, OPEN, b" " * (LINE_BYTES + 1)], FIRST_ANSWER),
        Row("last-line-of-1048576", [b"\n" * (LINES - 1), b" BACK 0"], b"1048576 KEPT=0\n"),
        Row("as-many-empty-lines", [b"\n" * LINES], b""),
        too_long("line-feed-after-the-last-line", [b"\n" * (LINES + 1)]),
    ]


def endless_row(name, byte):
    return too_long(name, itertools.repeat(byte * 4096), is_endless=True)


def endless_rows():
    return [
        endless_row("line-feeds-without-an-end", b"\n"),
        endless_row("letters-without-an-end", b"A"),
        endless_row("blanks-without-an-end", b" "),
        endless_row("asterisks-without-an-end", b"*"),
    ]


def answer_in_column_1(byte):
    """A name may be in column 1, and an asterisk makes a comment."""
    if byte == ord("*"):
        return None
    return "KEPT=0" if byte in b" #$@_" or chr(byte).isascii() and chr(byte).isalpha() else "FAULT COLUMN"


def answer_in_column_2(byte):
    """Whatever isn't a blank belongs to the operation."""
    return "KEPT=0" if byte == ord(" ") else "FAULT OPERATION"


def ends_line_at_column_72(byte):
    """Whether the next line is a statement of its own. A carriage return before the line feed isn't part of the line."""
    return byte in b" \r"


def lines_of(answers):
    """The output with these answers, by line number; None if a line has none."""
    return "".join("%07d %s\n" % (number, answer) for number, answer in answers if answer).encode()


def column_row(name, front, behind, answer):
    """A script of one line for each byte except the line feed, and what is answered to it."""
    script = [front + bytes([byte]) + behind for byte in OTHER_BYTES]
    return Row(name, script, lines_of((at + 1, answer(byte)) for at, byte in enumerate(OTHER_BYTES)), 4)


def column_72_row(name, next_line, continued, alone):
    """A script of two lines for each byte except the line feed: the answers to a statement of both lines, and to
    two."""
    script, answers = [], []
    for at, byte in enumerate(OTHER_BYTES):
        script += [b" BACK 0".ljust(71) + bytes([byte]) + b"\n", next_line]
        answers += zip((2 * at + 1, 2 * at + 2), alone if ends_line_at_column_72(byte) else (continued, None))
    return Row(name, script, lines_of(answers), 4)


def byte_rows():
    """Each byte in the columns where a byte decides, and after them, where none does. A line feed there ends the
    line."""
    front = b" BACK 0".ljust(71)
    behind = [front + b" " + bytes([byte]) * 18 + b"\n" for byte in OTHER_BYTES]
    remark = b"               R\n"
    return [
        column_row("any-byte-in-column-1", b"", b" BACK 0\n", answer_in_column_1),
        column_row("any-byte-in-column-2", b" ", b"BACK 0\n", answer_in_column_2),
        column_72_row("any-byte-in-column-72", b" BACK 0\n", "FAULT CONTINUATION", ("KEPT=0", "KEPT=0")),
        column_72_row("any-byte-in-column-72-before-a-remark", remark, "KEPT=0", ("KEPT=0", "FAULT OPERATION")),
        Row("any-byte-after-column-72", behind, lines_of((at + 1, "KEPT=0") for at in range(len(behind)))),
        Row("line-feed-in-column-1", [b"\n BACK 0\n"], b"0000002 KEPT=0\n"),
        Row("line-feed-in-column-2", [b" \nBACK 0\n"], b"0000002 FAULT OPERATION\n", 4),
        Row("line-feed-in-column-72", [front, b"\n\n BACK 0\n"], b"0000001 KEPT=0\n0000003 KEPT=0\n"),
        Row("line-feed-in-column-72-before-a-remark", [front, b"\n\n", remark],
            b"0000001 KEPT=0\n0000003 FAULT OPERATION\n", 4),
    ]


# Statements after those that define 1,024 names, of which N1023 was the last, in the first two pages, each with its
# answer. A 1,025th is refused, whatever the storage would answer, but not before a length of zero. A name that is
# undone, and one that is defined again, don't count. The history keeps the last 1,024 changes.
BEHIND_1024_NAMES = [
    (" STORAGE OBTAIN,LENGTH=8,ADDR=ONEMORE", "ABEND U3013"),
    (" STORAGE OBTAIN,LENGTH=8,ADDR=ONEMORE,COND=YES", "ABEND U3013"),
    (" STORAGE OBTAIN,LENGTH=65537,ADDR=ONEMORE,COND=YES", "ABEND U3013"),
    (" STORAGE OBTAIN,LENGTH=0,ADDR=ONEMORE", "ABEND U3001"),
    (" PEEK ONEMORE,1", "REFUSED NAME"),
    (" STORAGE OBTAIN,LENGTH=8,ADDR=N0", "RC=0 A=00008000 L=00000008"),
    (" STORAGE OBTAIN,LENGTH=8,ADDR=(5)", "RC=0 A=00008008 L=00000008"),
    (" BACK 3", "KEPT=1021"),
    (" PEEK N1023,1", "REFUSED NAME"),
    (" STORAGE OBTAIN,LENGTH=8,SP=1,ADDR=ONEMORE", "RC=0 A=00007FF8 L=00000008"),
    (" PEEK ONEMORE,1", "D=00"),
    (" PEEK N1023,1", "REFUSED NAME"),
    (" STORAGE OBTAIN,LENGTH=8,ADDR=N1023", "ABEND U3013"),
    (" BACK 1", "KEPT=1021"),
    (" STORAGE OBTAIN,LENGTH=65537,ADDR=N1023,COND=YES", "RC=4"),
    (" FORWARD 1", "REFUSED UNDONE=0"),
    (" PEEK ONEMORE,1", "REFUSED NAME"),
    (" PEEK N1023,1", "REFUSED NAME"),
    (" STORAGE OBTAIN,LENGTH=8,SP=1,ADDR=N1023", "RC=0 A=00007FF8 L=00000008"),
    (" STORAGE OBTAIN,LENGTH=8,SP=1,ADDR=ONEMORE", "ABEND U3013"),
]


def statements_row(name, statements, options=()):
    """A script of these statements, one of which is refused, with their answers."""
    script = [statement.encode() + b"\n" for statement, _ in statements]
    answers = ((at + 1, answer) for at, (_, answer) in enumerate(statements))
    return Row(name, script, lines_of(answers), 4, options=options)


def defined_names():
    """Statements that define 1,024 names in subpool 1, each with its answer."""
    return [(" STORAGE OBTAIN,LENGTH=8,SP=1,ADDR=N%d" % at, "RC=0 A=%08X L=00000008" % (0x6000 + 8 * at))
            for at in range(1024)]


def names_row():
    return statements_row("no-1025th-name", defined_names() + BEHIND_1024_NAMES)

# Statements after those that build 256 cell pools of a cell, each with its answer. A 257th is refused, whatever the
# storage would answer, but not before a bad size and a name that has a cell pool. One that is deleted, or undone,
# doesn't count.
BEHIND_256_CELL_POOLS = [
    (" CPOOL BUILD,PCELLCT=1,CSIZE=8,CPID=P256", "ABEND U3013"),
    (" CPOOL BUILD,PCELLCT=4096,CSIZE=4096,CPID=P256", "ABEND U3013"),
    (" CPOOL BUILD,PCELLCT=1,CSIZE=6,CPID=P256", "ABEND U3012"),
    (" CPOOL BUILD,PCELLCT=1,CSIZE=8,CPID=P0", "ABEND U3009"),
    (" CPOOL GET,CPID=P255", "RC=0 A=000067F8"),
    (" CPOOL DELETE,CPID=P17", "RC=0"),
    (" CPOOL BUILD,PCELLCT=1,CSIZE=8,CPID=P256", "RC=0 A=00006088 L=00000008"),
    (" CPOOL BUILD,PCELLCT=1,CSIZE=8,CPID=P17", "ABEND U3013"),
    (" BACK 2", "KEPT=257"),
    (" CPOOL BUILD,PCELLCT=1,CSIZE=8,CPID=P256", "ABEND U3013"),
    (" CPOOL GET,CPID=P17", "RC=0 A=00006088"),
    (" CPOOL GET,C,CPID=P17", "RC=4"),
]


def cell_pools_row():
    built = [(" CPOOL BUILD,PCELLCT=1,CSIZE=8,CPID=P%d" % at, "RC=0 A=%08X L=00000008" % (0x6000 + 8 * at))
             for at in range(256)]
    return statements_row("no-257th-cell-pool", built + BEHIND_256_CELL_POOLS)


# Statements after those that define 1,024 names, the last of them N1023: a GET whose name would be the 1,025th is
# refused before it's found that no cell is free, but not before the cell pool is looked for.
CELLS_BEHIND_1024_NAMES = [
    (" CPOOL GET,CPID=CP,CELL=ONEMORE", "ABEND U3010"),
    (" CPOOL BUILD,PCELLCT=1,CSIZE=8,SP=2,CPID=CP", "RC=0 A=00008000 L=00000008"),
    (" CPOOL GET,CPID=CP,CELL=ONEMORE", "ABEND U3013"),
    (" CPOOL GET,C,CPID=CP,CELL=ONEMORE", "ABEND U3013"),
    (" CPOOL GET,CPID=CP,CELL=N5", "RC=0 A=00008000"),
    (" CPOOL GET,C,CPID=CP,CELL=ONEMORE", "ABEND U3013"),
    (" CPOOL GET,C,CPID=CP,CELL=N6", "RC=4"),
    (" CPOOL FREE,CPID=CP,CELL=N6", "ABEND U3011"),
    (" CPOOL FREE,CPID=CP,CELL=N5", "RC=0"),
    (" CPOOL FREE,CPID=CP,CELL=ONEMORE", "REFUSED NAME"),
    (" CPOOL GET,CPID=CP,CELL=(5)", "RC=0 A=00008000"),
    (" BACK 6", "KEPT=1018"),
    (" CPOOL BUILD,PCELLCT=1,CSIZE=8,SP=2,CPID=CP", "RC=0 A=00008000 L=00000008"),
    (" CPOOL GET,CPID=CP,CELL=ONEMORE", "RC=0 A=00008000"),
    (" CPOOL GET,CPID=CP,CELL=N1023", "ABEND U3013"),
    (" BACK 1", "KEPT=1019"),
    (" CPOOL GET,C,CPID=CP,CELL=N1023", "RC=0 A=00008000"),
    (" CPOOL GET,C,CPID=CP,CELL=ONEMORE", "ABEND U3013"),
]


def cell_names_row():
    return statements_row("no-1025th-name-of-a-cell", defined_names() + CELLS_BEHIND_1024_NAMES)


def map_with(subpool, pages, taken, free, kept):
    """The map when register 1 has the first address, subpool 1 has these lines, and 64 pages are below the line."""
    zeros = " 00000000" * 7
    return "\n".join(["MAP", " TASK 1 PARENT 0 CURRENT", "  R0 00000000 00006000" + zeros[9:], "  R8 00000000" + zeros,
                      " SUBPOOL 0 OWNER 1 SHARERS NONE", " SUBPOOL 1 OWNER 1 SHARERS NONE", *subpool,
                      " PAGES LOW %d OF 64 HIGH 0 OF 16" % pages, " BYTES TAKEN %d FREE %d" % (taken, free),
                      " HISTORY KEPT %d OF 65536" % kept])


def free_areas_row():
    """A subpool with 10,000 free areas of a doubleword, released whole. A step back brings each of them back, and the map."""
    count = 10_000
    # The area ends 3,840 bytes before the end of its last page.
    lines = ["  EXTENT 00006000 00028000", *("  FREE %08X 00000008" % (0x6000 + 16 * at) for at in range(count)), "  FREE 0002D100 00000F00"]
    before = map_with(lines, 40, 8 * count, 8 * count + 3840, count + 1)
    behind = map_with([], 0, 0, 0, count + 2)
    areas = ["X'%X'" % (0x6000 + 16 * at) for at in range(count)]
    statements = [(" STORAGE OBTAIN,LENGTH=%d,SP=1" % (16 * count), "RC=0 A=00006000 L=%08X" % (16 * count))]
    statements += [(" STORAGE RELEASE,LENGTH=8,ADDR=%s,SP=1" % area, "RC=0") for area in areas]
    statements += [(" MAP", before), (" STORAGE RELEASE,SP=1", "RC=0"), (" PEEK X'6000',1", "ABEND S0C4"), (" MAP", behind),
                   (" BACK 1", "KEPT=%d" % (count + 1)), (" MAP", before)]
    statements += [(" GETMAIN RU,LV=8,SP=1", "RC=0 A=%08X L=00000008" % (0x6000 + 16 * at)) for at in range(count)]
    # All of the area is taken again; the last page has free storage after it.
    statements += [(" GETMAIN RU,LV=8,SP=1", "RC=0 A=%08X L=00000008" % (0x6000 + 16 * count)),
                   (" BACK %d" % (count + 1), "KEPT=%d" % (count + 1)), (" STORAGE RELEASE,LENGTH=8,ADDR=X'6000',SP=1", "ABEND SA78"),
                   (" FREEMAIN RU,SP=1", "RC=0"), (" MAP", behind), (" BACK 1", "KEPT=%d" % (count + 1)), (" MAP", before),
                   (" FORWARD 1", "KEPT=%d" % (count + 2)), (" MAP", behind), (" PEEK X'6000',1", "ABEND S0C4")]
    return statements_row("whole-release-of-10000-free-areas", statements, ["--low", "256", "--history", "65536"])


def help_row(name, word):
    """The help names each option, the exit status and an example, and reads nothing."""
    pieces = [b"--low <K>", b"--high <K>", b"--residence <MODE>", b"--history <N>", b"[FILE]", b"Exit status:", b"Example:"]
    return Row(name, [b" BACK 0\n"], b"", options=[word, "nowhere"], file=b"", pieces=pieces)


def made_rows():
    help_rows = [help_row("help", "--help"), help_row("short-help", "-h"),
                 Row("version", [b" BACK 0\n"], b"vsm 0.1.0 (rattle logic dac8208d650f15bf)\n", 0, ["--version"])]
    return length_rows() + endless_rows() + byte_rows() + [names_row(), free_areas_row(), cell_pools_row(), cell_names_row()] + help_rows
