"""Programs at the limits that docs/MESSAGES.md tells under E04, and past them; two limits in one program.

Nothing is said of a program at a limit. Past it the message stands at a line that is worked out here from that page.
"""
from case import Case

TOKENS, STATE_SETS, STATES = "65536 tokens", "64 state sets", "1024 states"
CHANNELS, ELEMENTS = "1024 channels", "1024 elements"
WORDS_OF_A_SET, WORDS = "65536 words in a state set", "1048576 words"
FUNCTIONS = "256 functions"
MOST = 256
# With these alone each state set keeps 65,536 words, and sixteen of them keep 1,048,576.
FULL = [f"int a{k}[1024];" for k in range(64)]
SIXTEEN = 16


def cases():
    yield from tokens()
    yield from state_sets_and_states()
    yield from channels()
    yield from words_of_a_state_set()
    yield from words_of_a_program()
    yield from functions()
    yield from chains()
    yield from two_limits()
    yield limited("a sum of 10,000 terms", ["int x;", *sums(10_000)], {})


def tokens():
    """22 tokens and semicolons; the last line is the last token."""
    for count in (65536, 65537):
        lines = ["ss s { state a { when (1) {", ";" * (count - 22), "} state a }", "}"]
        yield limited(f"{count} tokens", lines, {6: TOKENS} if count > 65536 else {})


def state_sets_and_states():
    for count in (64, 65):
        yield limited(f"{count} state sets", sets(count), {67: STATE_SETS} if count > 64 else {})
    for count in (1000, 1001):
        lines = [*sets(24), "ss last {", *ring(count), "}"]
        yield limited(f"24 states and {count}", lines, {1028: STATES} if count > 1000 else {})


def channels():
    """A whole variable counts once, and of one that is assigned by elements each element."""
    for count in (1024, 1025):
        yield limited(f"{count} channels", [*linked(count), *sets(1)], {1027: CHANNELS} if count > 1024 else {})
    three = ["int x[3];", 'assign x to {"d", "e", "f"};']
    yield limited("three channels of one variable pass the limit", [*linked(1022), *three, *sets(1)], {1026: CHANNELS})
    yield limited("three channels of one variable at the limit", [*linked(1021), *three, *sets(1)], {})
    yield limited("the limit is passed once", [*linked(1022), *three, "int y;", 'assign y to "g";', *sets(1)], {1026: CHANNELS})


def words_of_a_state_set():
    """A state set keeps the elements of the program's variables, of its own and of those in its blocks."""
    yield limited("64 arrays", [*FULL, *sets(1)], {})
    yield limited("64 arrays and a variable", [*FULL, "int x;", *sets(1)], {68: WORDS_OF_A_SET})
    for inside in (512, 513):
        lines = ["ss s {", "int b[512];", f"state a {{ when () {{ {{ int c[{inside}]; }} }} state a }} }}"]
        name = f"63 arrays, 512 words of the state set and {inside} of a block"
        yield limited(name, [*FULL[1:], *lines], {66: WORDS_OF_A_SET} if inside > 512 else {})
    more = [*FULL, "int x[1024];"]
    yield limited("65 arrays", [*more, *sets(1)], {68: WORDS_OF_A_SET})
    yield limited("65 arrays in two state sets", [*more, *sets(2)], {68: WORDS_OF_A_SET, 69: WORDS_OF_A_SET})
    undeclared = [*more, "ss s { state a { when (z) { } state a } }"]
    yield told("65 arrays beside an undeclared name", undeclared, "p.st:68: error: E13 'z' is not declared\n")


def words_of_a_program():
    """All state sets together; and the elements of each buffer, and the places of each queue for each element."""
    yield limited("64 arrays in sixteen state sets", [*FULL, *sets(SIXTEEN)], {})
    assigned = [*FULL[1:], "int x[1023];", "int y;", 'assign y to "c";']
    yield limited("and a buffer of one word", [*assigned, *sets(SIXTEEN)], {1: WORDS})
    # 255 words in the state set, 255 in the buffer and 255 times 4,096 in the queue, which leaves 3,586: two and a queue.
    for size in (3584, 3585):
        queues = ["evflag f;", *queued("x[255]", "x", 4096), *queued("y", "y", size)]
        yield limited(f"queues of 4,096 for 255 elements and of {size} for one", [*queues, *sets(1)], {1: WORDS} if size > 3584 else {})


def functions():
    """How many there are. And the words that they keep: each its parameters, the variables of its blocks and one more, once for the
    program and for no state set."""
    for count in (256, 257):
        lines = [*[f"void f{k}() {{ }}" for k in range(count)], *sets(1)]
        yield limited(f"{count} functions", lines, {259: FUNCTIONS} if count > 256 else {})
    # Sixteen state sets with 65,535 words each leave sixteen words: those of two parameters, of an array of 12 and of the function.
    for size in (13, 14):
        lines = [*FULL[1:], "int x[1023];", f"int f(int n, int m) {{ {{ int v[{size}]; }} return n; }}", *sets(SIXTEEN)]
        yield limited(f"a function of {size + 3} words", lines, {1: WORDS} if size > 13 else {})
    # So do sixteen functions without a value and without a variable: one word each, for the place to return to.
    for count in (16, 17):
        lines = [*FULL[1:], "int x[1023];", *[f"void f{k}() {{ }}" for k in range(count)], *sets(SIXTEEN)]
        yield limited(f"{count} functions of a word", lines, {1: WORDS} if count > 16 else {})


def chains():
    """As many functions as there may be, each of which calls the one above it. A call costs a tick, and so does the transition."""
    # Function k stands in line 3 + k, and the clause in line 4 + MOST.
    called = [f"int f{k}(int n) {{ return f{k - 1}(n) + 1; }}" for k in range(1, MOST)]
    lines = ["int f0(int n) { return n + 1; }", *called, "ss s { state w {", f'when (f{MOST - 1}(7) == {MOST + 7}) {{ printf("{MOST} deep"); }} exit }} }}']
    ends = {
        MOST + 1: f"0 print s {MOST} deep\n0 go s w exit\n0 exit p\n",
        # The transition.
        MOST: f"0 fault s {4 + MOST} step budget spent\n",
        # The call of `f0` in `f1`.
        MOST - 1: "0 fault s 4 step budget spent\n",
        # The first call, and then the second one.
        1: f"0 fault s {2 + MOST} step budget spent\n",
    }
    for budget, end in ends.items():
        words = [b"--budget", b"%d" % budget, b"p.st"]
        name = f"limits: a chain of {MOST} functions with {budget} ticks"
        status = 5 if " fault " in end else 0
        yield Case(name, text_of(lines), b"0 tick\n", words, f"0 start p\n{end}".encode(), b"", (status,))
    called = [f"int f{k}(int n) {{ return f{k - 1}(n) + f{k - 1}(n); }}" for k in range(1, MOST)]
    lines = ["int f0(int n) { return n; }", *called, f"ss s {{ state w {{ when (f{MOST - 1}(1)) {{ }} exit }} }}"]
    spent = f"0 start p\n0 fault s {3 + caller_of(100_001)} step budget spent\n"
    yield Case(f"limits: {MOST} functions, each of which calls the one above it twice", text_of(lines), b"0 tick\n", stdout=spent.encode(), statuses=(5,))


def caller_of(number):
    """The number of the function that makes a call, where each but the first calls the one above it twice. The first call is that of
    the last function; those that function k makes, with all that come of one of them, are 2 to the power of k, less one."""
    caller, skipped = MOST - 1, number - 2
    while skipped % (2**caller - 1) > 0:
        skipped = skipped % (2**caller - 1) - 1
        caller -= 1
    return caller


def two_limits():
    """Each limit has its place, and where two have the same the first of the list is told; words only beside words."""
    long = "[1025]; } } state a } }"
    # The name is the last token that may be, and the first that may not.
    yield limited("elements, and tokens behind", block(65516, long), {5: ELEMENTS, 6: TOKENS})
    yield limited("elements and tokens at one token", block(65517, long), {5: TOKENS})
    array = ["int x[1025];", 'assign x to "d";']
    yield limited("elements and channels", [*linked(1024), *array, *sets(1)], {1027: ELEMENTS, 1028: CHANNELS})
    many = [f"ss s {{ {' '.join(ring(961))} }}", *sets(63), "ss last {", *ring(1), "}"]
    yield limited("state sets and states", many, {67: STATE_SETS, 68: STATES})
    yield limited("65 arrays beside one that is too long", [*FULL, "int x[1024];", "int y[1025];", *sets(1)], {68: ELEMENTS})
    over = [*FULL, "int x;", *sets(SIXTEEN)]
    yield limited("both limits of words", over, {1: WORDS, **{68 + k: WORDS_OF_A_SET for k in range(SIXTEEN)}})


def sets(count):
    return [f"ss s{k} {{ state a {{ when () {{ }} state a }} }}" for k in range(count)]


def ring(count):
    """States, each of which leads to the next one."""
    return [f"state t{k} {{ when () {{ }} state t{(k + 1) % count} }}" for k in range(count)]


def sums(count):
    return [f"ss s {{ state a {{ when (x == {' + '.join(['1'] * count)}) {{ }} state a }} }}"]


def linked(count):
    return [f'int v{k}; assign v{k} to "c";' for k in range(count)]


def queued(declared, name, size):
    return [f"int {declared};", f'assign {name} to "{name}";', f"monitor {name};", f"syncQ {name} to f {size};"]


def block(count, rest):
    """So many semicolons before a block that declares a variable; 19 tokens more stand before its name."""
    return ["ss s { state a { when (1) {", ";" * count + "{ int", "x", rest]


def limited(name, lines, passed):
    """A case for a program of these lines behind the first two, with the limit that is passed at each line."""
    return told(name, lines, "".join(f"p.st:{line}: error: E04 limit passed: {what}\n" for line, what in sorted(passed.items())))


def told(name, lines, said):
    return Case(f"limits: {name}", text_of(lines), stderr=said.encode(), statuses=(1 if said else 0,), tool="snc")


def text_of(lines):
    """The source of a program of these lines behind the first two."""
    return "".join(f"{it}\n" for it in ["program p", "option +s;", *lines]).encode()
