"""Random texts on which document 01 and GNU m4 have one rule: texts.text(seed) gives the bytes of one, the same for the same seed.

docs/GNU.md lists the rules that differ; the texts keep clear of them by the way they are made:
- No name that GNU m4 has beside ours is written, nor include or sinclude with a parenthesis: tests/gnu/includes.py cuts the texts in pieces for that. A text covers a predefined name only where nothing in between calls it. In calls more than an empty
  quote stands between a predefined name and a parenthesis that is none of its own: the quote would be gone when the text is read again.
- The first token of every argument, quoted text and defined text is solid: a word, number, sign, quote, or a call whose result starts
  with such a token. So no call that gives nothing, or a blank first, stands in front of an argument's blanks.
- A name is defined, pushed or removed outside of calls; inside of them only names that are called nowhere inside.
- GNU m4 has no copydef. The first line of every text makes one of its defn where there is none; it has the usual quote marks in its text, so copies are made only where these are in force. What is copied has a definition.
- Marks change between the parts of a text. What has quotes or comments in it is called only in the part that defined it.
- Every comment is written with its end mark: at the end of a text GNU m4 asks for it, whatever it is.
- Numbers are written as 01 has them, divisors are not 0, shift counts are 0 to 31. One m4wrap waits at a time. No $1 has a digit behind it.
A macro calls only macros of a lower rank and loops count down, so every text ends.
"""
import random

WORDS = "mast guy cable sway wind load north lee drum boom crew rig tall _base x7 Top".split()
# predefined, and words like those above unless a parenthesis directly follows
UNOPENED = "decr define defn errprint eval ifdef ifelse include incr index len m4wrap popdef pushdef shift sinclude substr translit undefine".split()
SIGNS = ["+", "-", "*", "=", "!", "?", ".", ":", "<", ">", "/", "^", "&", "~", "\\", "\xe9", "\xc3\xa4", "'s"]
BLANKS = [" ", "  ", "\t", "\n", " \n "]
QUOTES = [("`", "'"), ("`", "'"), ("[", "]"), ("{", "}"), ("[[", "]]"), ("{|", "|}"), ("`[", "]'"), ("+{+{+", "+}+}+"), ('"', '"'), ("\xab", "\xbb")]
# makes a copydef where there is none
COPYDEF = "ifdef(`copydef',`',`define(`copydef',`define(`$2',defn(`$1'))')')dnl\n"
# predefined macros that are called by their copies, too
COPIED = "decr define defn divert divnum dnl errprint eval ifdef ifelse incr index len m4exit m4wrap popdef pushdef shift substr translit undefine undivert".split()
COMMENTS = [("#", "\n"), ("#", "\n"), ("//", "\n"), (";;", ";"), ("/*", "*/"), ("#|", "|#"), None]
BINARY = ["*", "+", "-", "<", "<=", ">", ">=", "==", "!=", "&", "^", "|", "&&", "||", "/", "%"]
LETTERS = "abcdefghijklmnopqrstuvwxyz"
RANKS = 3


class Writer:
    """Writes one text; `marks` and `comment` are those in force, `names` the macros that may be called, by rank, `copies` those of predefined macros."""

    def __init__(self, seed):
        self.random = random.Random("gnu %d" % seed)
        self.marks, self.comment = QUOTES[0], COMMENTS[0]
        self.names = {}
        self.lasting = {}
        self.copies = {}
        self.count = 0

    def pick(self, items):
        return self.random.choice(items)

    def upto(self, n):
        return self.random.randint(0, n)

    def chance(self, percent):
        return self.random.randrange(100) < percent

    def fresh(self, front):
        self.count += 1
        return "%s_%d_" % (front, self.count)

    # quotes and comments

    def nests(self):
        return self.marks[0] != self.marks[1]

    def quote(self, text):
        return self.marks[0] + text + self.marks[1]

    def sign(self):
        """A sign that no mark in force has a part in."""
        held = "".join(self.marks) + ("".join(self.comment) if self.comment else "")
        return self.pick([s for s in SIGNS if not any(c in held for c in s)])

    def remark(self):
        """A comment. Its text has no quote marks: it may stand in quotes."""
        begin, end = self.comment
        return begin + self.pick([" guy(1, 2), len(", "", " a, b) (", " define(x) $ "]).replace(";", "") + end

    # what gives a value

    def number(self):
        return str(self.pick([0, 1, 2, 7, 12, 100, 2147483646, self.upto(99), -self.upto(50), "007", "-0"]))

    def literal(self):
        n = self.pick([0, 1, 2, 3, 10, 255, 65536, 2147483647, 2147483648, 4294967295, self.upto(1000)])
        return self.pick([str(n), str(n), "0x%x" % n, "0X%X" % n, "0%o" % n])

    def operand(self, depth):
        if depth == 0 or self.chance(40):
            return self.literal()
        if self.chance(30):
            return self.pick(["- ", "+ ", "!", "~"]) + self.operand(depth - 1)
        if self.chance(30):
            return "(%s%s%d)" % (self.operand(depth - 1), self.pick(["<<", ">> "]), self.upto(31))
        return "(" + self.expression(depth - 1) + ")"

    def expression(self, depth):
        text = self.operand(depth)
        for _ in range(self.upto(3)):
            operator = self.pick(BINARY)
            right = self.pick(["1", "2", "7", "1000", "(-3)", "0x10", "- 1"]) if operator in ("/", "%") else self.operand(depth)
            text += operator + self.pick(["", " ", "\t"] if right[0] not in "+-" else [" ", "\n"]) + right
        return self.pick(["0&&1/0||", "1||1%0|| ", "0&&1<<77||"]) + text if self.chance(10) else text

    def evaluated(self):
        more = ""
        if self.chance(40):
            more = ",%d" % self.random.randint(2, 36)
            if self.chance(60):
                more += ",%d" % self.upto(12)
        return self.by("eval") + "(" + self.expression(3) + more + ")"

    def word(self):
        return self.pick(UNOPENED if self.chance(25) else WORDS)

    def plain(self):
        """A word without calls, quotes or commas."""
        return self.word() + self.pick(["", "17", "_a", "".join(self.pick(LETTERS) for _ in range(self.upto(6)))])

    def measured(self):
        """A call whose result is a number."""
        kind = self.upto(4)
        if kind == 0:
            return self.by("len") + "(" + self.pick([self.plain(), self.quote(self.plain() + " " + self.plain()), self.quote("")]) + ")"
        if kind == 1:
            word = self.plain()
            start = self.upto(len(word))
            return self.by("index") + "(%s,%s)" % (word, self.quote(self.pick([word[start:start + 2], self.plain(), ""])))
        if kind == 2:
            return self.by(self.pick(["incr", "decr"])) + "(" + self.pick([self.number(), "len(%s)" % self.plain()]) + ")"
        if kind == 3:
            return self.by("divnum")
        return self.evaluated()

    def cut(self):
        """A call that gives some bytes of a word, perhaps none."""
        word = self.quote(self.plain())
        if self.chance(50):
            return self.by("substr") + "(%s,%d%s)" % (word, self.upto(8), self.pick(["", "," + str(self.upto(5))]))
        taken = "".join(self.pick(LETTERS) for _ in range(self.upto(4)))
        return self.by("translit") + "(%s,%s%s)" % (word, self.quote(taken), self.pick(["", "," + self.quote("".join(self.pick(LETTERS + "XYZ_") for _ in range(self.upto(4))))]))

    # texts: `rank` bounds the macros that may be called, `depth` the nesting

    def known(self, rank):
        return [name for name, own in self.names.items() if own < rank]

    def own(self):
        return [name for name in self.names if name not in self.lasting]

    def call(self, rank, depth):
        name = self.pick(self.known(rank))
        return name + ("" if self.chance(10) else "(" + self.arguments(rank, depth, self.upto(4)) + ")") + self.pick(["", self.quote("")])

    def arguments(self, rank, depth, count):
        return ",".join(self.argument(rank, depth) for _ in range(count))

    def argument(self, rank, depth):
        text = "" if self.chance(10) else self.solid(rank, depth) + self.items(rank, depth, 2)
        return self.pick(["", "", " ", "\n\t"]) + text

    def quoted(self, rank, depth):
        """A quoted text; quotes in quotes only where they nest."""
        if depth == 0 or not self.nests():
            return self.quote(self.pick(["", " "]) + self.plain() + self.pick(["", ", " + self.plain(), " "]))
        return self.quote(self.pick(["", "", " "]) + self.solid(rank, depth - 1) + self.items(rank, depth - 1, 2))

    def solid(self, rank, depth):
        kind = self.upto(7)
        if kind <= 1:
            return self.word() + self.pick(["", " "])
        if kind == 2:
            return self.number()
        if kind == 3:
            return self.sign()
        if kind == 4:
            return self.measured()
        if kind == 5 and depth and self.known(rank):
            return self.call(rank, depth - 1)
        if kind == 6:
            return self.quote("") + self.loose(rank, depth)
        return self.quoted(rank, depth)

    def loose(self, rank, depth):
        """A call that may give nothing or anything."""
        if depth == 0:
            return self.cut()
        kind = self.upto(6)
        if kind == 0:
            return self.choice(rank, depth - 1)
        if kind == 1:
            return self.by("ifdef") + "(%s,%s)" % (self.quote(self.pick(list(self.names) + ["nothing", "len", ""])), self.arguments(rank, depth - 1, 1 + self.upto(1)))
        if kind == 2:
            return self.by("shift") + "(" + self.arguments(rank, depth - 1, self.upto(4)) + ")"
        if kind == 3:
            return self.by("defn") + "(%s)" % ",".join(self.quote(self.pick(self.own() + ["nothing"])) for _ in range(1 + self.upto(1)))
        if kind == 4:
            return self.by("define") + "(%s,%s)" % (self.quote(self.pick(["held_a", "held_b"])), self.quoted(0, 1))
        if kind == 5:
            return self.by("dnl") + " " + self.pick(["", "a remark"]) + "\n"
        return self.cut()

    def choice(self, rank, depth):
        some = [self.word(), self.quoted(rank, depth), self.measured(), self.quote("")]
        pair = lambda: self.pick(some) + "," + self.pick(some) + ","
        last = self.pick(["", "," + self.argument(rank, depth), "," + self.argument(rank, depth) + ",surplus"])
        return self.by("ifelse") + "(" + "".join(pair() + self.quoted(rank, depth) + "," for _ in range(self.upto(2))) + pair() + self.quoted(rank, depth) + last + ")"

    def items(self, rank, depth, count):
        """What may stand behind a solid token; a sign keeps names apart."""
        return "".join(self.pick([" ", ".", self.quote("")]) + self.item(rank, depth) for _ in range(self.upto(count)))

    def item(self, rank, depth):
        kind = self.upto(9)
        if kind <= 1:
            return self.pick(BLANKS)
        if kind == 2:
            return self.loose(rank, depth)
        if kind == 3 and depth:
            return self.pick([" ", "."]) + "(" + self.solid(rank, depth - 1) + self.items(rank, depth - 1, 2) + ")"
        if kind == 4 and self.comment:
            return " " + self.remark()
        return self.solid(rank, depth)

    # definitions

    def body(self, rank):
        """A defined text of a solid token and more, with its arguments in all their forms."""
        def part():
            kind = self.upto(7)
            if kind <= 2:
                return self.pick(["$1", "$2", "$9", self.quote("$#"), "$*", "$@", self.quote("$0"), "$", "$$1"]) + self.pick([".", " ", ":", self.quote("")])
            if kind == 3 and self.known(rank):
                return "%s(%s)" % (self.pick(self.known(rank)), self.pick(["$@", self.quote("$1"), self.quote("$2") + ",shift($@)", "a," + self.quote("$*")]))
            if kind == 4:
                return self.by("ifelse") + "(%s,%s,%s,%s)" % (self.quote("$1"), self.word(), self.quote(self.word() + " $2"), self.quote("<$1>" if "<" not in "".join(self.marks) else "$1"))
            if kind == 5:
                return self.by("divert") + "(%d)%s$1\ndivert(0)" % (self.pick([1, 2, 5, 9, -1]), self.word() + " ")
            return self.item(rank, 1)
        if not self.nests():
            return self.flat()
        return self.word() + "".join(self.pick([" ", ":", self.quote("")]) + part() for _ in range(1 + self.upto(3)))

    def flat(self):
        """A defined text without quotes or comments."""
        return self.pick(["the $1 of $2", "n=$#: $*.", "at $@ end", "val $1+$1", "$", "all $9$$1$a"])

    def definition(self):
        rank = self.upto(RANKS)
        mine = [name for name in self.own() if self.names[name] == rank]
        name = self.pick(mine) if mine and self.chance(60) else self.fresh("m")
        text = self.by(self.pick(["define", "define", "pushdef"])) + "(" + self.quote(name) + "," + self.quote(self.body(rank)) + ")dnl\n"
        self.names[name] = rank
        return text + self.twin(name) + self.used(name)

    def used(self, name):
        """A call of a macro, often, on a line of its own."""
        return name + "(" + self.arguments(RANKS, 1, self.upto(3)) + ")\n" if self.chance(60) else ""

    def lasting_definition(self):
        """A macro without quotes or comments in its text: it may be called in every part."""
        name = self.fresh("all")
        self.lasting[name] = 0
        return "define(%s,%s)dnl\n" % (self.quote(name), self.quote(self.flat()))

    def loop(self):
        """A loop by recursion: counting down, or over a list."""
        name = self.fresh("loop")
        q, inner = self.quote, self.solid(RANKS, 1) + self.items(RANKS, 1, 2)
        if self.chance(50):
            text = "ifelse(eval($1<=0),1,%s,%s)" % (q("end"), q("$1 " + inner + q("") + name + "(decr($1))"))
            return "define(%s,%s)dnl\n%s(%d)\n" % (q(name), q(text), name, self.upto(12))
        text = "ifelse($#,1,%s,%s)" % (q("last $1"), q("$1" + q("") + " " + inner + q("") + name + "(shift($@))"))
        return "define(%s,%s)dnl\n%s(%s)\n" % (q(name), q(text), name, ",".join(q(self.plain()) for _ in range(1 + self.upto(6))))

    # copies

    def copies_here(self):
        return self.marks == QUOTES[0]

    def by(self, name):
        """A predefined macro by its own name or by a copy's."""
        return self.pick([name] + self.copies.get(name, []))

    def copy(self):
        """A copy of a predefined macro, or of such a copy, for all that follows."""
        name, copy = self.pick(COPIED), self.fresh("as")
        text = "copydef(%s,%s)dnl\n" % (self.quote(self.by(name)), self.quote(copy))
        self.copies.setdefault(name, []).append(copy)
        return text

    def twin(self, name):
        """Sometimes a copy of a macro that is defined, by a new name or over another of its rank; the macro may get another text then."""
        if not self.copies_here() or not self.chance(30):
            return ""
        rank = self.names[name]
        others = [other for other in self.own() if self.names[other] == rank]
        copy = self.pick(others) if self.chance(50) else self.fresh("m")
        self.names[copy] = rank
        text = "copydef(%s,%s)dnl\n" % (self.quote(name), self.quote(copy))
        if self.chance(50):
            text += "define(%s,%s)dnl\n" % (self.quote(name), self.quote(self.body(rank)))
        return text + self.used(copy)

    def exchanged(self):
        """A copy over a predefined name, called by it with a parenthesis and without; then the name uncovered."""
        name = self.pick([name for name in UNOPENED if name not in ("define", "defn", "popdef", "pushdef")])
        given, arguments = self.pick(self.simple_calls())
        q = self.quote(name)
        text = "pushdef(%s,below)copydef(%s,%s)dnl\n" % (q, self.quote(self.by(given)), q)
        text += "%s(%s) %s%s(%s) %s\n" % (name, arguments, name, self.apart(), self.quote(self.plain()), name)
        return text + "popdef(%s)%s\n" % (q, name)

    # predefined names and the parenthesis

    def apart(self):
        """What keeps a parenthesis from opening a call of the name before it."""
        return self.pick([" ", "\t", "\n", ".", self.quote("")] + ([self.remark()] if self.comment else []))

    def covered(self):
        """A text over a predefined name, called with a parenthesis and without; then the name uncovered."""
        name = self.pick([name for name in UNOPENED if name not in ("define", "popdef", "pushdef")])
        q = self.quote(name)
        unopened = [name, name + self.apart() + "(" + self.quote(self.plain()) + ")"]
        opened = name + "(" + self.pick(["", self.quote(self.plain()), self.plain() + "," + self.number()]) + ")"
        cover = self.pick(["pushdef", "pushdef(%s,below)define" % q, "pushdef(%s,below)pushdef" % q])
        text = cover + "(%s,%s)dnl\n" % (q, self.quote(self.flat()))
        text += " ".join(self.pick(unopened + [opened]) for _ in range(1 + self.upto(2))) + "\n"
        return text + cover.count("pushdef") * ("popdef(%s)" % q + self.pick(unopened) + "\n")

    def simple_calls(self):
        """Predefined macros, with arguments for them."""
        q, word = self.quote, self.plain()
        return [("len", word), ("incr", self.number()), ("index", word + ",e"), ("shift", "a," + q(word)), ("substr", q(word) + ",1"), ("ifelse", "a,a," + q(word))]

    def opened_later(self):
        """A macro that gives a predefined name, and a parenthesis in the text behind its call."""
        name, q = self.fresh("open"), self.quote
        given, arguments = self.pick(self.simple_calls())
        given = self.by(given)
        text = q(given) if self.nests() and self.chance(20) else given
        return "define(%s,%s)dnl\n%s()%s(%s)\n" % (q(name), q(text), name, self.pick(["", "", self.apart()]), arguments)

    # the whole text

    def top(self):
        """One line or so outside of calls."""
        kind = self.upto(18)
        if kind <= 2:
            return self.definition()
        if kind == 3 and self.nests():
            return self.loop()
        if kind == 4:
            return self.by("divert") + "(%d)" % self.pick([0, 1, 1, 3, 3, 9, -1]) + self.solid(RANKS, 2) + self.items(RANKS, 2, 4) + "\n" + self.by("divert") + self.quote("")
        if kind == 5:
            return self.by("undivert") + self.pick([self.quote(""), "(%d)" % self.random.randint(1, 9), "(3,1)"])
        if kind == 6 and self.names:
            name = self.pick(list(self.names))
            more = self.pick(["", "," + self.quote(self.pick(list(self.names)))])
            return self.by(self.pick(["popdef", "popdef", "undefine"])) + "(" + self.quote(name) + more + ")" + self.used(name)
        if kind == 7:
            return self.by("errprint") + "(" + self.pick(["", self.arguments(RANKS, 1, 2) + ","]) + self.quote("\n") + ")"
        if kind == 8:
            return self.lasting_definition()
        if kind == 9 and self.comment:
            return self.remark()
        if kind == 10:
            return self.covered()
        if kind == 11:
            return self.opened_later()
        if kind <= 13 and self.copies_here():
            return self.copy()
        if kind == 14 and self.copies_here():
            return self.exchanged()
        return self.solid(RANKS, 3) + self.items(RANKS, 3, 5) + self.pick(["\n", " ", self.by("dnl") + " gone\n"])

    def change(self):
        """New marks, and no macro left that has old ones in it."""
        self.marks, self.comment = self.pick(QUOTES), self.pick(COMMENTS)
        text = "changequote" + (self.quote("") if self.marks == QUOTES[0] else "(@,@)changequote(@%s@,@%s@)" % self.marks)
        ends = self.comment and (self.comment[:1] if self.comment[1] == "\n" and self.chance(50) else self.comment)
        text += "changecom" + ("(%s)" % ",".join(self.quote(m) for m in ends) if ends else self.quote(""))
        self.names = dict(self.lasting)
        return text + "dnl\n"

    def part(self):
        return "".join(self.top() for _ in range(2 + self.upto(5)))

    def wrap(self):
        return self.by("m4wrap") + "(" + self.quote((self.solid(RANKS, 1) + self.items(RANKS, 1, 3) if self.nests() else self.plain()) + "\n") + ")"

    def exit(self):
        return self.by("m4exit") + self.pick([self.quote(""), "(0)", "(%d)" % self.upto(255)])

    def pieces(self):
        """The text's pieces, which end outside of calls, each behind an empty quote with the marks that are in force where it begins."""
        yield self.quote(""), COPYDEF + self.part()
        for _ in range(self.upto(2)):
            yield self.quote(""), self.change()
            yield self.quote(""), self.part()
        if self.chance(30):
            yield self.quote(""), self.wrap()
            yield self.quote(""), self.part()
        if self.chance(15):
            yield self.quote(""), self.exit()
            yield self.quote(""), self.part()


def pieces(seed):
    return list(Writer(seed).pieces())


def text(seed):
    return "".join(piece for _, piece in pieces(seed)).encode("latin-1") + b"\n"
