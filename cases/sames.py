"""`snl same` of the examples and of changed copies of them: what tells each apart from what it was, and that two say the same; long lines, of `snl at` too."""
from case import Case
from shell import Calls

# The example, a change as sed has it, and what is told of both over the trace of the example.
CHANGES = (
    (
        "light",
        "s/> 5/> 7/",
        """line 5 of the trace differs:
old wrote: 10100 put LAB:LAMP 1
new wrote: nothing
old fired at 10100: clause 1 of dark, line 10: voltage=7
new fired no clause at 10100
old is in room lit
new is in room dark
2 of 8 lines of the trace differ, the last is line 8
old wrote 4 lines, 1 put; new wrote 1 line, 0 puts; alone: old 3 lines, new 0 lines
puts to LAB:LAMP: old 1, new 0
the last put to LAB:LAMP: old 1, new none
""",
    ),
    ("light", "s/> 5/>= 6/", "the same over 8 lines of the trace: 4 lines, 1 put\n"),
    (
        "handshake",
        "s/delay(10)/delay(11)/",
        """line 9 of the trace differs:
old wrote: 13000 go oven full empty
new wrote: 14000 go oven full empty
old fired at 13000: clause 1 of full, line 30
old fired at 13000: clause 1 of waits, line 15: part=2
new fired at 14000: clause 1 of full, line 30
new fired at 14000: clause 1 of waits, line 15: part=2
old is in robot waits, oven full
new is in robot waits, oven full
1 of 9 lines of the trace differ, the last is line 9
old wrote 15 lines, 7 puts; new wrote 15 lines, 7 puts; alone: old 8 lines, new 8 lines
the last put to each channel is the same
""",
    ),
    (
        "ramp",
        "s/step > 10) step = 10/step > 12) step = 12/",
        """line 7 of the trace differs:
old wrote: 1000 put MAG:CURRENT 10
new wrote: 1000 put MAG:CURRENT 12
old fired at 1000: clause 1 of begin, line 13
old fired at 1000: clause 1 of rests, line 16: wanted=25
old fired at 1000: clause 2 of ready, line 20
new fired at 1000: clause 1 of begin, line 13
new fired at 1000: clause 1 of rests, line 16: wanted=25
new fired at 1000: clause 2 of ready, line 20
old is in magnet steps
new is in magnet steps
11 of 24 lines of the trace differ, the last is line 24
old wrote 48 lines, 10 puts; new wrote 6 lines, 1 put; alone: old 43 lines, new 1 line
puts to MAG:CURRENT: old 10, new 1
the last put to MAG:CURRENT: old 15, new 12
""",
    ),
    # The gauge is silent at 7100: the valve stays open, which is seen at the line behind it.
    (
        "interlock",
        "/gauge is silent/s/valve = 0; pvPut(valve);//",
        """line 26 of the trace differs:
old wrote: 7100 put VAC:VALVE:OPEN 0
new wrote: 7100 go guard open shut
old fired at 7100: clause 2 of alive, line 31
old fired at 7100: clause 2 of open, line 23: valve=1
new fired at 7100: clause 2 of alive, line 31
new fired at 7100: clause 2 of open, line 23: valve=1
old is in guard shut, watchdog dead
new is in guard shut, watchdog dead
1 of 29 lines of the trace differ, the last is line 26
old wrote 20 lines, 5 puts; new wrote 19 lines, 4 puts; alone: old 1 line, new 0 lines
puts to VAC:VALVE:OPEN: old 5, new 4
the last put to each channel is the same
""",
    ),
)


SOURCE = b"""program wide option +s;
int x; assign x to "X"; monitor x;
ss s { state a { when (x > 5) {} state b } state b { when (x < 3) {} state a } }
"""
CALL = [b"same", b"p.st", b"p.st"]
# A line of a trace has at most 32,768 bytes.
LONG = b"0 up X\n0 val X 6\n#%s\n"


def cases(root):
    for name, change, told in CHANGES:
        calls = f"bin/snl same examples/{name}.st <(sed '{change}' examples/{name}.st) < examples/{name}.trace\n"
        yield Calls(f"snl same: {name}, after {change}", root, calls, told, tool="snl")
    yield Case("snl same: a last line that no newline ends", SOURCE, b"0 up X\n0 val X 6", CALL, b"the same over 2 lines of the trace: 2 lines, 0 puts\n", tool="snl")
    yield Case("snl same: a longest line", SOURCE, LONG % (b" " * 32_767), CALL, b"the same over 3 lines of the trace: 2 lines, 0 puts\n", tool="snl")
    told = b"the same over 3 lines of the trace: 2 lines, 0 puts\neach does not take the line: line too long\n"
    yield Case("snl same: a line that is too long", SOURCE, LONG % (b" " * 32_768), CALL, told, b"trace:3: line too long\n", (6,), "snl")
    # It does not come in one piece.
    far = LONG % (b" " * 32_000) + b"#%s\n" % (b" " * 20_000) + b"#%s\n" % (b" " * 50_000)
    told = b"the same over 5 lines of the trace: 2 lines, 0 puts\neach does not take the line: line too long\n"
    yield Case("snl same: a line that is too long, in two pieces", SOURCE, far, CALL, told, b"trace:5: line too long\n", (6,), "snl")
    # A program is looked at in front of such a line, however the bytes of the trace come.
    for last in (b"#%s\n" % (b" " * 32_768), b"#%s" % (b" " * 100_000)):
        told = b"at 7 is not reached: a line of the trace is bad, behind line 2 of the trace, at 0\nstate s b since 0 (from a)\nclause 1 of b, line 3: x=6 < 3: no\nvalue x = 6\nchannel X = 6 since 0 (line 2), up\n"
        yield Case(f"snl at: a line of {len(last)} bytes", SOURCE, b"0 up X\n0 val X 6\n" + last, [b"at", b"7", b"p.st"], told, b"trace:3: line too long\n", (6,), "snl")
    longest = LONG % (b" " * 32_767) + b"9 val X 1"
    told = b"at 7, behind line 2 of the trace, at 0\nstate s b since 0 (from a)\nclause 1 of b, line 3: x=6 < 3: no\nvalue x = 6\nchannel X = 6 since 0 (line 2), up\n"
    yield Case("snl at: a longest line, and one that no newline ends", SOURCE, longest, [b"at", b"7", b"p.st"], told, tool="snl")
