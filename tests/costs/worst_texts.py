"""For each macro, for a defined text and for the end of a run: texts of a given size on which one step of it costs most, with what they come to.

A text that lacks its last parenthesis is refused at its end; with it, the call is closed, which is the step in question. Steps, place, output and
error text of both runs are counted by hand from the way in which the text is made; document 01 is the only source. Which names share a bucket, so that a search
has to pass all of them, is the expander's choice (tests/shared/same_bucket.py).
"""
import collections

from same_bucket import bucket_of, family

# a text and the steps that it takes
Piece = collections.namedtuple("Piece", "text steps")
# a text, and what `expand` writes on standard output and standard error
Run = collections.namedtuple("Run", "text output errors")
# two texts that differ by the step in question; whether its cost grows with the size
Worst = collections.namedtuple("Worst", "without whole grows")

END = 1  # the step that ends a run
MACROS = ("changecom changequote decr define defn divert divnum dnl errprint eval ifdef ifelse incr index len m4exit m4wrap popdef pushdef shift substr translit "
          "undefine undivert include sinclude copydef").split()
MOST_ARGUMENTS = 256
LENT = 65536  # bytes of each buffer
MANY = 64  # arguments, where each is long beside what it costs for itself
NAMES = family(bucket_of(b"k"), 3000)
UNKNOWN = NAMES[-1]  # of their bucket, and defined nowhere
SIGNS = b"`'" + bytes(b for b in range(256) if b not in b"`'")  # every byte, in an order that is balanced in quotes


def joined(*pieces):
    return Piece(b"".join(p.text for p in pieces), sum(p.steps for p in pieces))


def opened(name, *arguments):
    """A call up to its last parenthesis: the name with the first one is a step, and so is each quoted argument and each comma."""
    return Piece(name + b"(" + b",".join(b"`%s'" % a for a in arguments), 2 * len(arguments))


def made(name, *arguments):
    return joined(opened(name, *arguments), Piece(b")", 1))


def run(text, steps, output=b"", errors=b"", number=0, detail=0):
    """A run that takes the whole text."""
    return Run(text, output, errors + b"%d %d %d %d\n" % (number, steps, len(text), detail))


def closed(before, after=Piece(b"", 0), given=0, grows=True, steps=END, **told):
    """The call that `before` leaves open is closed; `given` is how many steps are in what it gives, `after` what stands behind it."""
    without = run(before.text, before.steps, number=5, detail=3)
    whole = run(before.text + b")" + after.text, before.steps + 1 + given + after.steps + steps, **told)
    return Worst(without, whole, grows)


def words(n):
    """Definitions in n bytes of text: names that differ in their last bytes only and are in one bucket, that of k, each with a text of two bytes."""
    return joined(*(made(b"define", name, b"ab") for name in NAMES[: n // 24]))


def pushed(n, name=b"k"):
    """n definitions of a name of one byte, without texts. A turn is a call, ten times pushdef with its argument, and an empty quote."""
    turns = n // 10
    return joined(made(b"define", b"u", b"pushdef(`%s')" % name * 10), Piece(b"u`'" * turns, (1 + 10 * 3 + 1) * turns))


def nine_streams(n):
    """n bytes in streams 1 to 9, each byte in another one than the last; stream 9 is the current one. A turn is a call, nine times divert(k) and a digit, and
    an empty quote."""
    turns = n // 9
    text = b"".join(b"divert(%d)%d" % (k, k) for k in range(1, 10))
    return joined(made(b"define", b"u", text), Piece(b"u`'" * turns, (1 + 9 * 4 + 1) * turns))


def in_order(n, streams):
    """What comes out of nine_streams(n) when they are written out in this order."""
    return b"".join(b"%d" % k * (n // 9) for k in streams)


# the macros in the order of their numbers


def changecom(n):
    return closed(opened(b"changecom", b"!!!!!", b"?????", b"a" * n), Piece(b"!!!!!`a'?????", 1), output=b"!!!!!`a'?????", grows=False)


def changequote(n):
    return closed(opened(b"changequote", b"[[[[[", b"]]]]]", b"a" * n), Piece(b"[[[[[a`]]]]]", 1), output=b"a`", grows=False)


def decr(n):
    return closed(opened(b"decr", b"0" * n + b"1"), given=1, output=b"0")


def define_shifts(n):
    """The oldest definition becomes longer, and all others move."""
    return closed(joined(made(b"define", b"k", b"b"), words(n), opened(b"define", b"k", b"bb")), Piece(b"k", 2), output=b"bb")


def define_copies(n):
    return closed(opened(b"define", b"a", b"b" * n), Piece(b"a", 2), output=b"b" * n)


def defn_copies(n):
    return closed(joined(made(b"define", b"a", b"b" * n), opened(b"defn", b"a")), given=1, output=b"b" * n)


def defn_searches(n):
    """Each argument is the oldest definition."""
    many = MOST_ARGUMENTS - 1
    return closed(joined(made(b"define", b"k", b"b"), words(n), opened(b"defn", *[b"k"] * many)), given=many, output=b"b" * many)


def divert(n):
    return closed(opened(b"divert", b"0" * n + b"1"), Piece(b"x", 1), output=b"x")


def divnum(n):
    return closed(opened(b"divnum", b"a" * n), given=1, output=b"0", grows=False)


def dnl(n):
    """The two runs differ by the length of the line that is dropped."""
    return Worst(run(b"dnl\n", 1 + END), run(b"dnl%s\n" % (b"#" * n), 1 + END), True)


def errprint(n):
    arguments = [b"a" * (n // MANY)] * MANY
    return closed(opened(b"errprint", *arguments), errors=b" ".join(arguments))


def evaluate(n):
    """1<1 is 0 and 0<1 is 1, so an even number of comparisons gives 1."""
    return closed(opened(b"eval", b"1" + b"<1<1" * (n // 4)), given=1, output=b"1")


def evaluate_wide(n):
    """The number gets n digits. Each of them is a step then, so the two runs differ by these too."""
    return closed(opened(b"eval", b"1", b"10", b"%d" % n), given=n, output=b"0" * (n - 1) + b"1")


def ifdef_searches(n):
    return closed(joined(words(n), opened(b"ifdef", UNKNOWN, b"a", b"b")), given=1, output=b"b")


def ifdef_in_full_bucket(n):
    """The bucket of ifdef, which is that of a, is full of other definitions, and so is that of its argument, which is the same."""
    unknown = family(bucket_of(b"ifdef"), 1)[0]
    return closed(joined(pushed(n, b"a"), opened(b"ifdef", unknown, b"1", b"2")), given=1, output=b"2")


def ifdef_copies(n):
    return closed(opened(b"ifdef", b"len", b"b" * n), given=1, output=b"b" * n)


def ifelse_compares(n):
    """85 pairs that differ in their last byte, and what is given if none is equal."""
    long = b"a" * (n // 170)
    return closed(opened(b"ifelse", *[long + b"b", long + b"c", b"y"] * 85, b"x"), given=1, output=b"x")


def ifelse_copies(n):
    return closed(opened(b"ifelse", b"a", b"a", b"b" * n), given=1, output=b"b" * n)


def incr(n):
    return closed(opened(b"incr", b"0" * n + b"1"), given=1, output=b"2")


def index(n):
    """Wherever it is looked for, all but the last byte is there."""
    return closed(opened(b"index", b"a" * (n * 2 // 3), b"a" * (n // 3) + b"b"), given=2, output=b"-1")


def length(n):
    """A digit is a step."""
    return closed(opened(b"len", b"a" * n), given=len(str(n)), output=b"%d" % n, grows=False)


def m4exit(n):
    return closed(opened(b"m4exit", b"0" * n + b"1"), steps=0, number=1, detail=1)


def m4wrap(n):
    """At the end the wrap text becomes pending, which is a step, and then it is a name."""
    return closed(opened(b"m4wrap", b"a" * n), given=2, output=b"a" * n)


def popdef(n):
    """Each argument uncovers one of 200 definitions below all others, which move each time."""
    hidden = joined(*[made(b"pushdef", b"k", b"b")] * 200)
    return closed(joined(hidden, words(n), opened(b"popdef", *[b"k"] * 200)), Piece(b"k", 1), output=b"k")


def popdef_oldest(n):
    """All other definitions get another number, and all buckets are filled again."""
    return closed(joined(made(b"define", NAMES[0], b"1"), pushed(n), opened(b"popdef", NAMES[0])), Piece(NAMES[0], 1), output=NAMES[0])


def popdef_newest(n):
    """Nothing moves."""
    return closed(joined(pushed(n), opened(b"popdef", b"k")), grows=False)


def pushdef(n):
    return closed(opened(b"pushdef", b"a", b"b" * n), Piece(b"a", 2), output=b"b" * n)


def pushdef_among(n):
    """Nothing is sought, and nothing moves."""
    return closed(joined(pushed(n), opened(b"pushdef", b"k")), grows=False)


def shift(n):
    """A quoted argument is a step, and so is a comma."""
    rest = [b"a" * (n // MANY)] * (MANY - 1)
    return closed(opened(b"shift", b"b", *rest), given=2 * len(rest) - 1, output=b",".join(rest))


def substr(n):
    return closed(opened(b"substr", b"b" + b"a" * n, b"1", b"%d" % n), given=1, output=b"a" * n)


def translit(n):
    """Every byte has a letter as partner, but for the last 56, which go."""
    partners = bytes(b"abcdefghijklmnopqrstuvwxyz"[k % 26] for k in range(200))
    return closed(opened(b"translit", SIGNS * (n // 256), SIGNS, partners), given=1, output=partners * (n // 256))


def undefine_moves(n):
    """Every other definition goes."""
    pairs = joined(*[made(b"pushdef", b"a", b"b"), made(b"pushdef", b"c", b"d")] * (n // 32))
    return closed(joined(pairs, opened(b"undefine", b"a")), Piece(b"a`'c", 4), output=b"ad")


def undefine_searches(n):
    unknown = [UNKNOWN] * (MOST_ARGUMENTS - 1)
    return closed(joined(words(n), opened(b"undefine", *unknown)), Piece(NAMES[0], 2), output=b"ab")


def undefine_oldest(n):
    return closed(joined(made(b"define", NAMES[0], b"1"), pushed(n), opened(b"undefine", NAMES[0])), Piece(NAMES[0], 1), output=NAMES[0])


def undivert_to_output(n):
    numbers = range(9, 0, -1)
    before = joined(nine_streams(n), made(b"divert", b"0"), opened(b"undivert", *(b"%d" % k for k in numbers)))
    return closed(before, output=in_order(n, numbers))


def undivert_to_stream(n):
    """Streams 8 to 1 behind what is in stream 9; that is skipped, as it is the current one."""
    numbers = range(9, 0, -1)
    before = joined(nine_streams(n), opened(b"undivert", *(b"%d" % k for k in numbers)))
    return closed(before, output=in_order(n, numbers))


def undivert_to_nowhere(n):
    before = joined(nine_streams(n), made(b"divert", b"-1"), opened(b"undivert", *(b"%d" % k for k in range(1, 10))))
    return closed(before)


def undivert_into_little(n):
    """The output has room for streams 8 to 1, but for a byte less than waits in all nine: these are counted first. The end would not fit, so m4exit drops stream 9."""
    numbers = range(8, 0, -1)
    written = b"x" * (LENT - 9 * (n // 9) + 1)
    before = joined(Piece(b"`%s'" % written, 1), nine_streams(n), made(b"divert", b"0"), opened(b"undivert", *(b"%d" % k for k in numbers)))
    return closed(before, Piece(b"m4exit", 1), steps=0, number=1, output=written + in_order(n, numbers))


def undivert_all(n):
    """Without arguments, beside a run that drops the streams."""
    before = joined(nine_streams(n), made(b"divert", b"0"))
    return Worst(run(before.text + b"m4exit", before.steps + 1, number=1),
                 run(before.text + b"undivert", before.steps + 1 + END, output=in_order(n, range(1, 10))), True)


def include(n):
    """The set of `expand` has no item, so nothing is passed over, and the call is refused. (set_cost.py has sets.)"""
    before = opened(b"include", b"a" * n)
    refused = run(before.text, before.steps, number=15)
    return Worst(run(before.text, before.steps, number=5, detail=3), refused._replace(text=before.text + b")"), False)


def sinclude(n):
    return closed(opened(b"sinclude", b"a" * n), grows=False)


def copydef_shifts(n):
    """The oldest definition gets the text of the newest, and all between move, with that text."""
    text = b"b" * (n // 4)
    before = joined(made(b"define", b"k", b""), words(n // 2), made(b"define", b"c", text))
    return closed(joined(before, opened(b"copydef", b"c", b"k")), Piece(b"k", 2), output=text)


def copydef_appends(n):
    """Both texts are in buffer 3 afterwards."""
    text = b"b" * (n // 2)
    return closed(joined(made(b"define", b"a", text), opened(b"copydef", b"a", b"c")), Piece(b"c", 2), output=text)


def copydef_drops(n):
    """The oldest definition loses a long text for a predefined meaning, and all others move. The call of it then takes four steps."""
    before = joined(made(b"define", b"k", b"b" * (n // 2)), words(n // 2))
    return closed(joined(before, opened(b"copydef", b"len", b"k")), Piece(b"k(xyz)", 4), output=b"3")


def copydef_searches(n):
    """The oldest definition is copied onto a name that has none."""
    return closed(joined(words(n), opened(b"copydef", NAMES[0], UNKNOWN)), Piece(UNKNOWN, 2), output=b"ab")


# not of one macro


def the_end(n):
    """All streams are written out, beside a run that drops them."""
    before = nine_streams(n)
    return Worst(run(before.text + b"m4exit", before.steps + 1, number=1), run(before.text, before.steps + END, output=in_order(n, range(1, 10))), True)


def text_of_references(n):
    """Each $9 is the ninth argument, of one byte."""
    text = b"$9" * (n // 2)
    return closed(joined(made(b"define", b"f", text), opened(b"f", *[b""] * 8, b"x")), given=1, output=b"x" * (n // 2))


def text_of_lists(n):
    """$@ is each argument in quotes, with commas between."""
    many = [b"a" * (n // MANY)] * MANY
    return closed(joined(made(b"define", b"f", b"$@"), opened(b"f", *many)), given=2 * len(many) - 1, output=b",".join(many))


def text_at_once(n):
    """Called without arguments, beside a run that does not call it."""
    before = made(b"define", b"f", b"a" * n)
    return Worst(run(before.text, before.steps + END), run(before.text + b"f", before.steps + 2 + END, output=b"a" * n), True)


def name_across_the_border(n):
    """A name that begins in what a call gave, and ends in the input."""
    before = joined(made(b"define", b"f", b"a" * (n // 2)), opened(b"f", b""))
    return closed(before, Piece(b"b" * (n // 2), 0), given=1, output=b"a" * (n // 2) + b"b" * (n // 2))


def used(before, name, steps, output):
    """A name is used, beside a run that does not use it."""
    return Worst(run(before.text, before.steps + END), run(before.text + name, before.steps + steps + END, output=output), True)


def oldest_used(n):
    """Below all others of its bucket. What it gives is a byte, and a step."""
    return used(joined(made(b"define", NAMES[0], b"1"), pushed(n)), NAMES[0], 2, b"1")


def unknown_used(n):
    return used(pushed(n), UNKNOWN, 1, UNKNOWN)


def names_used(count, uses):
    """Names of a template, so many, as they fall into the buckets, and uses of them, from the oldest to the newest. A use gives a byte; it, that byte and a newline
    are a step each."""
    names = [b"sway_x_%d" % k for k in range(count)]
    before = joined(*(made(b"define", name, b"1") for name in names))
    lines = Piece(b"".join(names[k * count // uses] + b"\n" for k in range(uses)), 3 * uses)
    whole = joined(before, lines)
    return Worst(run(before.text, before.steps + END), run(whole.text, whole.steps + END, output=b"1\n" * uses), True)


WORST = {
    "changecom": changecom,
    "changequote": changequote,
    "decr": decr,
    "define, all others move": define_shifts,
    "define, a long text": define_copies,
    "defn, a long text": defn_copies,
    "defn, 255 arguments": defn_searches,
    "divert": divert,
    "divnum": divnum,
    "dnl": dnl,
    "errprint, 64 arguments": errprint,
    "eval, a long chain": evaluate,
    "eval, many digits": evaluate_wide,
    "ifdef, a search": ifdef_searches,
    "ifdef, a full bucket": ifdef_in_full_bucket,
    "ifdef, a long text": ifdef_copies,
    "ifelse, 85 comparisons": ifelse_compares,
    "ifelse, a long text": ifelse_copies,
    "incr": incr,
    "index": index,
    "len": length,
    "m4exit": m4exit,
    "m4wrap": m4wrap,
    "popdef, 200 arguments": popdef,
    "popdef, the oldest": popdef_oldest,
    "popdef, the newest of all": popdef_newest,
    "pushdef": pushdef,
    "pushdef, among many": pushdef_among,
    "shift, 64 arguments": shift,
    "substr": substr,
    "translit, every byte": translit,
    "undefine, pushed often": undefine_moves,
    "undefine, 255 arguments": undefine_searches,
    "undefine, the oldest": undefine_oldest,
    "undivert to the output": undivert_to_output,
    "undivert to a stream": undivert_to_stream,
    "undivert to nowhere": undivert_to_nowhere,
    "undivert into little room": undivert_into_little,
    "undivert, all nine": undivert_all,
    "include, the empty set": include,
    "sinclude, the empty set": sinclude,
    "copydef, all others move": copydef_shifts,
    "copydef, a new long text": copydef_appends,
    "copydef, a text goes": copydef_drops,
    "copydef, two searches": copydef_searches,
    "the end, nine streams": the_end,
    "a text of references": text_of_references,
    "a text of 64 arguments": text_of_lists,
    "a text called at once": text_at_once,
    "a name across the border": name_across_the_border,
    "a name, oldest of many": oldest_used,
    "a name, none among many": unknown_used,
}


def without_text():
    """The macros that none of these is about."""
    return [name for name in MACROS if not any(key.replace(",", " ").split()[0] == name for key in WORST)]
