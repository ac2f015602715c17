"""Must-fail edits, as edits.py and incremental_edits.py read them: what an edit says, the functions of a crate, where a check refused one.

An edit is a remark, a line 'function: NAME' (MODULE::NAME, MODULE::TYPE::NAME), and 'file:', 'old:' and 'new:' lines. It changes the body of that function, or
of a private one of its file that only it calls; an old text stands there just once, as a whole line or else as a part of one. The edit has to be refused in
the proof of what it changes, at the promise: at a goal `returns`, or at `loop-x-init` or `loop-x-preserved`, where a loop's invariant carries the promise. A sum
that may wrap, an index, a length, a callee's premise or termination is none of these. Goals and places are called by the code's tests: where an edit changes one,
lines 'names: OLD NEW' say what it is called then, and the proof files of the functions that it changes are read with these names.
A function is written as 'MODULE/NAME' here, one of src/lib.rt as 'NAME', and a method as 'MODULE/TYPE/NAME'.
"""
import glob
import os
import re

ITEM = re.compile(r'^impl(?:<[^>]*>)? (\w+)(?: |<[^>]*> \{)|^\}$|^( *)(pub |pub\(crate\) )?(?:extern "C" )?fn (\w+)(?:<[^>]*>)?\(', re.M)
TYPE = re.compile(r"^(?:pub |pub\(crate\) )?(?:struct|enum) (\w+)", re.M)
CYCLE = re.compile(r"#\[cycle\((\w+)\)\]\n(?: *#\[.*\]\n)*\Z")
CALL = re.compile(r"(?:\b(\w+)::)?\b(\w+)\(")
# what a check says: an answer that it refuses, with the declaration; a goal that the tactics leave open; and how it calls a function
ERROR = re.compile(r"^(?:\./)?proofs/((\S+)\.antt:\d+:\d+): error: (?:`([^`\n]+)`: )?(.*)$", re.M)
OPEN = re.compile(r"^(?:note|error[^:]*): src/(\S+):(\d+):\d+: it is not proved that (.*)$", re.M)
NO_PROOF = re.compile(r"^fn (\S+): no proof: .*`search` did not prove (.*)$", re.M)
RESTS_ON = re.compile(r"^\d+ declarations? that depends? on `[^`]+`, which was rejected")
# an answer that names what the edited code does not have, or twice what it has, and a check that came to a limit: these say nothing of the code's meaning
MISFIT = re.compile(r"\bhas no field\b|\bhas no `|\bis not in scope\b|\bis no name\b|that can be named from here|\bis already declared\b|\bran out of (?:steps|stack|memory)\b")
PROMISE = re.compile(r"(?:\w+-)?(?:returns|loop-\w+-(?:preserved|init))(?:-\S+)?")

class Function:
    """A function or method: its name, where its body lies, and what it calls."""

    def __init__(self, name, module, path, item, text):
        indent = item.group(2)
        self.name, self.module, self.path = name, module, path
        self.public, self.private = item.group(3) == "pub ", item.group(3) is None
        body = re.compile(r"^%s\{$|\) (?:-> [^{}\n]+ )?\{$" % indent, re.M).search(text, item.start())
        end = re.compile(r"^%s\}$" % indent, re.M).search(text, item.start())
        self.start, self.end = (body.end(), end.start()) if body and end else (0, 0)
        above = CYCLE.search(text[: item.start()])
        # where its proof stands: functions that call one another have one together
        self.home = "/".join(filter(None, [name.rpartition("/")[0], "+" + above.group(1)])) if above else name
        self.calls = CALL.findall(text[self.start : self.end])


def functions_of(folder):
    """{'MODULE/NAME': function} of a crate, a method's as 'MODULE/TYPE/NAME' with the module of its type, where its proof stands, whichever file has it."""
    texts = {path: open(path, encoding="utf-8").read() for path in sorted(glob.glob(os.path.join(folder, "src", "*.rt")))}
    modules = {path: os.path.basename(path)[: -len(".rt")] for path in texts}
    homes = {name: modules[path] for path, text in texts.items() for name in TYPE.findall(text)}
    found = {}
    for path, text in texts.items():
        owner = None
        for item in ITEM.finditer(text):
            if item.group(4):
                home = homes.get(owner, modules[path])
                name = "/".join(filter(None, [None if home in ("lib", "main") else home, owner, item.group(4)]))
                found[name] = Function(name, modules[path], path, item, text)
            else:
                owner = item.group(1)
    return found


def parts_of(name, functions):
    """A function and the private ones of its file that nothing but it calls, directly or through these."""
    callers, own = {}, functions[name]
    for caller in functions.values():
        for module, called in caller.calls:
            beside = "" if caller.module in ("lib", "main") else caller.module + "/"
            callers.setdefault(module + "/" + called if module else beside + called, set()).add(caller.name)
    found = {name}
    while True:
        more = {f.name for f in functions.values() if f.private and f.path == own.path and f.name not in found and callers.get(f.name, {""}) - {f.name} <= found}
        if not more:
            return found
        found |= more


def calls_of(functions):
    """{function: what it may call} by the last parts of names."""
    named = {}
    for name in functions:
        named.setdefault(name.rpartition("/")[2], set()).add(name)
    return {name: set().union(*(named.get(called, set()) for _, called in f.calls)) for name, f in functions.items()}


def reached_from(names, calls):
    """Some functions and all that they call, directly or not."""
    found, ahead = set(), list(names)
    while ahead:
        name = ahead.pop()
        if name not in found:
            found.add(name)
            ahead += calls[name]
    return found


def replacements(edit):
    """(file, old, new) of each pair of an edit."""
    name = old = None
    for line in open(edit, encoding="utf-8").read().splitlines():
        if line.startswith("file: "):
            name = line[len("file: ") :]
        elif line.startswith("old: "):
            old = line[len("old: ") :]
        elif line.startswith("new:"):
            yield name, old, line[len("new:") :].removeprefix(" ")


def renamed_by(edit):
    """[(old, new)] of what the goals and places of the edited code are called otherwise, for the proof files that name them."""
    lines = [line.split() for line in open(edit, encoding="utf-8").read().splitlines() if line.startswith("names: ")]
    return [(line[1], line[2]) for line in lines if len(line) == 3]


def with_names(text, renamed):
    """A proof file with other names of goals and places."""
    for old, new in renamed:
        text = re.sub(r"(?<![A-Za-z0-9_])%s(?![A-Za-z0-9_])" % re.escape(old), new, text)
    return text


def named_by(edit):
    """The function that an edit is for, or None."""
    lines = [line for line in open(edit, encoding="utf-8").read().splitlines() if line.startswith("function: ")]
    return lines[0][len("function: ") :].strip().replace("::", "/") if len(lines) == 1 else None


def has_remark(edit):
    with open(edit, encoding="utf-8") as f:
        return re.match(r"(function|file|old|new):|\s*$", f.readline()) is None


def stands_at(old, text, start, end):
    """Where an old text stands in a body: as a whole line, or else as a part of one."""
    lines = [m.start(1) for m in re.finditer("^(%s)$" % re.escape(old), text[start:end], re.M)]
    return [start + at for at in lines or (m.start() for m in re.finditer(re.escape(old), text[start:end]))]


def places_of(edit, folder, functions):
    """[(path, place, old, new, function)] of an edit, and why it can't be tried, or None."""
    named, found = named_by(edit), []
    if not has_remark(edit):
        return found, "its first line is no remark that says which mistake it makes"
    if named not in functions:
        return found, "its line 'function:' names no function of the crate"
    parts = [functions[f] for f in sorted(parts_of(named, functions))]
    for name, old, new in replacements(edit):
        path = os.path.join(folder, name)
        text = open(path, encoding="utf-8").read()
        at = [(place, f.name) for f in parts if f.path == path for place in stands_at(old, text, f.start, f.end)]
        if len(at) != 1:
            return found, "its old text stands %d times in %s of %s" % (len(at), named, name)
        found.append((path, at[0][0], old, new, at[0][1]))
    return found, None if found else "it has no replacement"


def too_few(functions, edits):
    """Which public functions have fewer than two edits."""
    named = [named_by(edit) for edit in edits]
    return ["%s: it is public and has %d must-fail edits, not two" % (f, named.count(f)) for f in sorted(functions) if functions[f].public and named.count(f) < 2]


def declarations_in(path):
    """{name: the declarations of the file that it cites} of a proof file."""
    text = re.sub(r"--.*", "", open(path, encoding="utf-8").read()) if os.path.exists(path) else ""
    blocks = re.findall(r"^(?:pub |abbrev |unfoldable )*(\S+) :(?: |\n)(.*?)(?=^\S+ :|^(?:pub|abbrev|unfoldable) |\Z)", text, re.M | re.S)
    names = {name for name, _ in blocks}
    return {name: {w for w in re.findall(r"[^\s(){}\[\];,.λ]+", body) if w in names and w != name} for name, body in blocks}


def failing_with(declared, cites):
    """The goals whose answers fail because a declaration does: it is one, or they rest on it."""
    found = {declared}
    while True:
        more = {name for name, cited in cites.items() if cited & found} | found
        if more == found:
            return found
        found = more


def function_at(path, line, functions):
    """The name of the function whose body, contract or head has a line of a file of src/."""
    text = open(path, encoding="utf-8").read()
    at = sum(len(row) + 1 for row in text.split("\n")[: line - 1])
    here = [f for f in functions.values() if f.path == path and at <= f.end]
    return min(here, key=lambda f: f.end).name if here else ""


def refusals(said, folder):
    """What a check of the crate refused for a reason of its own: {'MODULE/NAME' or a file of laws: [(place, message, the goals that fail with it)]}."""
    refused, functions = {}, functions_of(folder)
    for place, name, declared, message in ERROR.findall(said):
        if not RESTS_ON.match(message):
            cites = declarations_in(os.path.join(folder, "proofs", name + ".antt"))
            home = re.sub(r"/(?:Answers|Invariants|Proof)$", "", name)
            refused.setdefault(home, []).append((place, message, failing_with(declared, cites) if declared else set()))
    for file, line, told in OPEN.findall(said):
        goals = set(re.findall(r"`([^`]+)`", re.sub(r".*\(", "", told)))
        at = function_at(os.path.join(folder, "src", file), int(line), functions)
        home = functions[at].home if at else ""
        refused.setdefault(home, []).append(("src/%s:%s" % (file, line), told, goals))
    for function, goals in NO_PROOF.findall(said):
        own = [("a search", "", {goal}) for goal in re.findall(r"`([^`]+)`", goals.partition(";")[0])]
        name = function.partition("::")[2].replace("::", "/")
        refused.setdefault(functions[name].home if name in functions else name, []).extend(own)
    return refused


def fault_of(homes, refused):
    """Why an edit of functions whose proofs stand there does not pass, or None; and where it was refused, in words."""
    own = [e for home in sorted(homes) for e in refused.get(home, [])]
    if not own:
        return "NOT REFUSED: %s is still proved with this edit" % ", ".join(sorted(homes)), ""
    where = ", ".join(sorted({"%s at %s" % (" and ".join(sorted(needs)) or "no need", place) for place, _, needs in own}))
    if any(MISFIT.search(message) for _, message, _ in own):
        return "refused because the proof file does not fit the edited code", where
    if not all(any(PROMISE.fullmatch(need) for need in needs) for _, _, needs in own):
        return "refused, but not at the promise alone: " + where, where
    return None, where


def unwatched(functions, edits, where):
    """Which public functions have no edit that is refused at a `returns`: an invariant stays in the proof when a promise is dropped."""
    watched = {named_by(edit) for edit in edits if re.search(r"\breturns\b", where.get(edit, ""))}
    return ["%s: none of its must-fail edits is refused at `returns`" % f for f in sorted(functions) if functions[f].public and f not in watched]
