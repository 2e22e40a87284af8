"""How much a growth may ask for: what `checks/reads` reports where memory could be wanted because more was asked for than there is.

A refused growth leaves a receipt, however much it asked for. So the size of each growth of the product has to be what is there in
memory, or little:
- a number, or a constant that is one, of MOST at most;
- how many there are of something (COUNTS, COUNTED), or a member that is bounded where it is read (BOUNDED);
- a sum or a difference of such sizes, one of them by a constant of MOST_TIMES at most, or the lesser of any and such a one;
- a name that such a size is given to in the function;
- a parameter, where each call of the function gives it such a size.

Sizes are read as words stand, so that a name which is given a size in another way, as by a pattern, is none.
"""
from __future__ import annotations

import re
from dataclasses import dataclass

from sources import functions_in, without_comments

MOST, MOST_TIMES = 1 << 20, 64
# Methods without arguments that count, and functions that do.
COUNTS = ("len", "slots", "reads", "writes", "capacity")
COUNTED = ("puts_in", "marks_in")
# Members that are a size of what is there, each with its file, and by what they are so: a limit that they are compared with before, or a
# definition that a clause holds them to.
BOUNDED = {("pb_parse/src/schedule/lines.rt", "order.times"): "MAX_EVENTS", ("pb_log/src/copying.rt", "self.end"): "IsAtRest"}
# A growth, with which of its arguments is the size; of `vec!` it is the last of three.
GROWTHS = {"reserve": 0, "reserve_exact": 0, "try_reserve": 0, "resize": 0, "repeat": 0, "with_capacity": 1, "from_elem": 2}
GROWTH = re.compile(rf"\b(?P<name>{'|'.join(GROWTHS)})\s*(?:::<[^>]*>)?(?=\()|\bvec!\s*(?=[(\[])")
IS_PUBLIC = re.compile(r"\bpub\s+(?:const\s+)?fn\b")
CONSTANT = re.compile(r"\bconst\s+([A-Z]\w*)\s*:[^=;]*=\s*([^;]*);")
NUMBER = re.compile(r"\d[\d_]*")
LET = r"\blet\s+(?:mut\s+)?{name}\s*(?::[^=;]*)?=(?P<size>[^;=][^;]*);"
ASSIGNED = r"(?<![\w.]){name}\s*(?P<how>[-+*/|&^%]|<<|>>)?=(?![=>])(?P<size>[^;]*);"
# How many growths of the product there are at least.
LEAST = 32


@dataclass(frozen=True)
class Place:
    """A size in the text of a file: its words, where they begin, and in which function, if in any."""

    path: str
    code: str
    words: str
    at: int
    function: object

    @property
    def line(self):
        return self.code.count("\n", 0, self.at) + 1


def parts_of(text, begin, separators=","):
    """What is between the bracket at this place and the one that closes it, parted at the separators that stand in no bracket of it."""
    found, depth, start = [], 0, begin + 1
    for at in range(begin, len(text)):
        it = text[at]
        depth += (it in "([{") - (it in ")]}")
        if not depth or depth == 1 and it in separators:
            found.append(text[start:at])
            start = at + 1
        if not depth:
            return [it.strip() for it in found if it.strip()]
    return []


def parted(words, signs):
    """Words parted at the signs that stand in no bracket, and have something before them."""
    found, depth, start = [], 0, 0
    for at, it in enumerate(words):
        depth += (it in "([{") - (it in ")]}")
        if not depth and it in signs and words[start:at].strip():
            found.append(words[start:at])
            start = at + 1
    return [*found, words[start:]]


def parameters_of(function):
    """The names of a function's parameters, without `self`."""
    name = function.head.find(f"fn {function.name}")
    begin = re.compile(r"\(").search(function.head, name + len(function.name))
    of = parts_of(function.head, begin.start()) if begin else []
    names = [re.match(r"(?:mut\s+)?(\w+)\s*:", it) for it in of]
    return [it[1] for it in names if it]


class Sizes:
    """The sizes of a product's growths: `texts` has its files without comments, by their paths below crates/."""

    def __init__(self, texts):
        self.texts = texts
        self.functions = {path: functions_in(path, code)[0] for path, code in texts.items()}
        values = (pair for code in texts.values() for pair in CONSTANT.findall(code))
        self.constants = {name: int(value.replace("_", "")) for name, value in values if NUMBER.fullmatch(value.strip())}
        # the parameters that are sizes, each by its function, its place, and the crate that may call that, if it is one
        self.parameters = set()

    def within(self, path, at):
        return next((it for it in self.functions[path] if it.start <= at < it.end), None)

    def growths(self):
        for path, code in self.texts.items():
            for growth in GROWTH.finditer(code):
                is_list = not growth["name"]
                of = parts_of(code, growth.end(), ";" if is_list else ",")
                place = 2 if is_list else GROWTHS[growth["name"]]
                if len(of) > place and not code[: growth.start()].rstrip().endswith("fn"):
                    yield Place(path, code, of[place], growth.start(), self.within(path, growth.start()))

    def calls(self, name, place, crate):
        """The sizes that calls of a function give to a parameter of it, in this crate or in all."""
        for path, code in ((path, code) for path, code in self.texts.items() if not crate or path.startswith(f"{crate}/")):
            for call in re.finditer(rf"(?<!fn )\b{name}\s*(?:::<[^>]*>)?(?=\()", code):
                of = parts_of(code, call.end())
                if len(of) > place:
                    yield Place(path, code, of[place], call.start(), self.within(path, call.start()))

    def is_few(self, words):
        """Whether this is a number of MOST_TIMES at most."""
        words = words.strip()
        value = int(words.replace("_", "")) if NUMBER.fullmatch(words) else self.constants.get(words.rpartition("::")[2])
        return value is not None and value <= MOST_TIMES

    def is_size(self, it, words, seen=()):
        """Whether these words are a size at a place."""
        words = re.sub(r"\s+as\s+usize$", "", words.strip().rstrip("?").strip())
        if words.startswith("(") and len(parts_of(words, 0, "")) == 1 and words.endswith(")") and parted(words, "+-*") == [words]:
            return self.is_size(it, words[1:-1], seen)
        for signs in ("+-", "*"):
            of = parted(words, signs)
            if len(of) > 1 and signs == "*":
                return len(of) == 2 and any(self.is_few(one) and self.is_size(it, other, seen) for one, other in (of, of[::-1]))
            if len(of) > 1:
                return all(self.is_size(it, one, seen) for one in of)
        if NUMBER.fullmatch(words):
            return int(words.replace("_", "")) <= MOST
        if re.fullmatch(r"(?:\w+::)*[A-Z][A-Z0-9_]*", words):
            return self.constants.get(words.rpartition("::")[2], MOST + 1) <= MOST
        if lesser := re.fullmatch(r"(?P<of>.*)\.min\((?P<other>.*)\)", words, re.S):
            return self.is_size(it, lesser["of"], seen) or self.is_size(it, lesser["other"], seen)
        if re.fullmatch(rf"[\w.&\s]*\.(?:{'|'.join(COUNTS)})\(\)", words) or re.fullmatch(rf"(?:{'|'.join(COUNTED)})\([\w.&\s]*\)", words):
            return True
        if (it.path, words) in BOUNDED:
            return True
        return bool(re.fullmatch(r"[a-z_]\w*", words)) and words not in seen and self.is_given(it, words, seen)

    def is_given(self, it, name, seen):
        """Whether a name of a function is only given sizes, or is a parameter, which is noted then."""
        if it.function is None:
            return False
        body = it.code[it.function.start : it.function.end]
        given = [found["size"] for found in re.finditer(LET.format(name=name), body)]
        later = [found for found in re.finditer(ASSIGNED.format(name=name), body) if not body[: found.start()].rstrip().endswith(("let", "mut"))]
        if any(found["how"] not in (None, "+", "-") for found in later):
            return False
        given += [found["size"] for found in later]
        parameters = parameters_of(it.function)
        if name in parameters:
            crate = "" if IS_PUBLIC.search(it.function.head) or it.function.is_of_trait else it.path.partition("/")[0]
            self.parameters.add((it.function.name, parameters.index(name), crate))
        elif not given:
            return False
        return all(self.is_size(it, one, (*seen, name)) for one in given)

    def faults(self):
        """The growths, and the calls of what grows, whose sizes are none; and how many growths there are."""
        met, wrong, known = list(self.growths()), [], set()
        wrong += [it for it in met if not self.is_size(it, it.words)]
        while new := self.parameters - known:
            known |= new
            wrong += [it for of in sorted(new) for it in self.calls(*of) if not self.is_size(it, it.words)]
        return wrong, len(met)


def tell_of_sizes(texts, tell):
    """Reports the growths of the product, given by crate and path, that may ask for more than there is."""
    try_rule(tell)
    wrong, met = Sizes({path: without_comments(text) for (_, path), text in texts.items()}).faults()
    for it in wrong:
        tell(f"crates/{it.path}:{it.line}: a growth may ask for more than there is: {' '.join(it.words.split())}")
    if met < LEAST:
        tell(f"checks/growths.py: {met} growths were read, and there are {LEAST} at least")


# Functions of which a growth may ask for more than there is, and functions of which none does.
TOO_MUCH = """
fn f(n: usize) { words.reserve(n * n)?; }
fn f(words: &[u8]) { let n = words.len(); list.reserve(n * n * n * n)?; }
fn f(words: &[u8]) { let n = words.len(); let all = n * n; list.reserve(all)?; }
fn f(words: &[u8]) { let mut n = words.len(); n *= words.len(); list.reserve(n)?; }
fn f(words: &[u8]) { let mut n = words.len(); n = other(n); list.reserve(n)?; }
fn f(words: &[u8]) { list.reserve(words.len() << 9)?; }
fn f(words: &[u8]) { list.reserve(words.len().pow(4))?; }
fn f(words: &[u8]) { list.reserve(1000 * words.len())?; }
fn f(alloc: Global) { let all = usize::MAX; let _room = Vec::<u8>::with_capacity(alloc, all)?; }
fn f(alloc: Global) { let _room = Vec::from_elem(alloc, 0u8, 9_999_999)?; }
fn f(alloc: Global) { let all = vec![in alloc; 0u8; BIG]?; } const BIG: usize = 1 << 62;
fn f(it: Option<usize>) { if let Some(n) = it { list.reserve(n)?; } }
fn f(it: &Order) { list.resize(it.times, 0)?; }
fn room(n: usize) { list.reserve(n)?; } fn f() { room(usize::MAX)?; }
fn room(n: usize) { list.reserve(n)?; } fn more(k: usize) { room(k)?; } fn f(words: &[u8]) { more(words.len() * words.len())?; }
"""
ENOUGH = """
fn f(words: &[u8]) { list.reserve(words.len())?; }
fn f(words: &[u8]) { list.reserve(1)?; list.reserve(FEW)?; } const FEW: usize = 64;
fn f(words: &[u8]) { let n = words.len(); list.reserve(n + 1)?; let more = (n - 1) * 9; list.reserve_exact(more)?; }
fn f(it: &Accepted) { let writes = Vec::with_capacity(alloc, it.writes().min(FEW))?; } const FEW: usize = 64;
fn f(disk: &mut D) { let len = disk.len()?; let bytes = Vec::from_elem(alloc, 0u8, len)?; }
fn f(edits: &[Edit]) { self.keys.reserve(puts_in(edits))?; }
fn room(n: usize) { list.reserve(n)?; } fn more(k: usize) { room(k)?; } fn f(words: &[u8]) { more(words.len())?; }
"""


def try_rule(tell):
    """Holds the rule to functions that it must report, and to functions that it must not."""
    for is_wrong, said in ((True, TOO_MUCH), (False, ENOUGH)):
        for line in said.strip().split("\n"):
            if bool(Sizes({"crate/a.rt": line}).faults()[0]) != is_wrong:
                tell(f"checks/growths.py: {'nothing' if is_wrong else 'something'} is found in '{line}'")
