"""The words by which code could report that memory is wanted where no growth was refused: what `checks/reads` reports of them.

That a growth was refused is shown by a value of `NoMemory`, whose private field only `pb_base/src/refusal.rt` writes, and which is
made of the standard library's `AllocError` and `AllocFailed`. These two are public, so that the compiler lets any code write them,
and what else leads to one. So, in the code of every crate:
- `AllocError` and `AllocFailed` stand as types of what is returned or converted alone, and under no other name;
- a library's own case of want of memory stands before `=>` or in a comparison, and makes a receipt at a door, of which each crate
  has just as many as DOORS states;
- no formatting is refused by hand, no growth is asked for that none can meet, nothing is `unsafe` but the name of an export, and
  no number is written into a fault that is there;
- a receipt is kept beyond no call: no `static` has one, and of types only those of HOLDERS have a member with one;
- `no memory` stands as a text where TEXTS has it, in functions that are given a receipt, or in the arm of a variant that holds
  one;
- what C gets as a kind is the number of an `AnswerKind`, whose case of want of memory holds a receipt, or of an ask, and nothing is
  written into one that is there: `KindNumber` has a private field, and so many numbers stand where it is declared. `percobpf_c`,
  which exports calls, makes none.
Tests are held to all of it but the last two; they take theirs from the one growth of `refused` in `test_fixtures`.
"""
from __future__ import annotations

import re

from sources import closing, functions_in, without_comments

# The module that makes receipts, in so many places, and numbers of refusals.
MAKER = "pb_base/src/refusal.rt"
MADE = {"NoMemory { refused: () }": 4, "Refusal(1)": 1, "Refusal(": 3}

# How many lines of a crate turn a library's want of memory into a receipt.
DOORS = {"pb_command": 2, "pb_files": 1, "pb_registry": 2, "percobpf_keep": 3}

# Where the text stands, but for clauses, and how often: in the first as what `NoMemory` displays, and in the others in a function
# that is given a receipt, or in the arm of a variant that holds one.
TEXTS = {
    MAKER: 1,
    "pb_driver/src/fault.rt": 1,
    "pb_files/src/fault.rt": 1,
    "pb_command/src/fault.rt": 1,
    "pb_command/src/words.rt": 1,
    "percobpf_keep/src/failure.rt": 1,
}
OF_RECEIPT = re.compile(r":\s*&?\s*NoMemory\b")
ARM = re.compile(r"\bNoMemory\(\w+\)\s*=>[^;]*$")

# The one function that asks for what none can meet, so that tests have a receipt.
ASKS_FOR_ALL = "test_fixtures", "refused"

# The types with a member that holds a receipt, or a type that does: what a call returns, which the caller takes apart.
HOLDERS = {
    "pb_log": {"LogFault"},
    "pb_keeper": {"Stopped"},
    "pb_keep": {"InputFault", "KeepFault", "Opened", "ReplaceFault", "SnapshotFault"},
    "pb_state": {"CarryFault"},
    "pb_reading": {"LineFault", "TextFault"},
    "pb_isa": {"NoProgram"},
    "pb_decode": {"DecodeFault"},
    "pb_verify": {"VerifyFault"},
    "pb_registry": {"ManifestCode", "RegistryFault"},
    "pb_core": {"OpenRefused"},
    "pb_state": {"CarryFault"},
    "pb_script": {"ReportFault"},
    "pb_threads": {"Cut", "NotRun", "Rooms", "Worked", "Worker"},
    "pb_world": {"AfterStep", "EventFault", "NotCalled", "WorldFault"},
    "pb_driver": {"Ran", "RunFault"},
    "pb_files": {"FileFault", "PathFault"},
    "pb_command": {"Fault"},
    "pb_story": {"StoryFault"},
    "pb_api": {"AnswerKind", "Page"},
    "percobpf_keep": {"Failure", "WatchedOut"},
}
RECEIPTS = {"NoMemory", "Refusal"}

# Where a refused growth may stand: as a type. What is left of the words is an expression, a pattern or a member.
ERROR_TYPE = r"Alloc(?:Error|Failed<[^;{}]*?>)"
TYPES = re.compile(
    rf"\bFrom<{ERROR_TYPE}>(?=\s+for\b|\s*[,>+{{])"
    r"|\bfn\s+(?:from|with_value<T>)\(\w+\s*:\s*Alloc(?:Error|Failed<[\w<>]+>)\)"
    rf"|\bfn\s+\w+[^(){{}}]*\([^(){{}};]*\bResult<[^(){{}};]*?,\s*{ERROR_TYPE}\s*>"
    rf"|(?:->|\blet\s+\w+:)\s*(?:core::result::)?Result<[^;{{}}]*?,\s*{ERROR_TYPE}\s*>"
    r"|\blet\s+AllocFailed\s*\{\s*value\s*\}\s*="
)
# The crate whose calls C gets, that which exports them, and how the kind of an answer is made.
OF_KINDS, EXPORTS = "pb_api", "percobpf_c"
DECLARED_KIND = re.compile(r"\bpub kind: KindNumber,|\bkind: AnswerKind(?=[,)])")
MADE_KIND = re.compile(r"\bkind: (?:(?:kind|AnswerKind::(?:Done|Refused|BadArgument|NotText|NoMemory\(refused\)))\.number\(\)|KindNumber::asks\(\)),\n")
# Where its numbers stand, and how many they are.
NUMBERS, NUMBER_COUNT = "pb_api/src/kind.rt", 6
# Any other way: a member of another value, or by a shorter form, or what is written into one.
OTHER_KIND = re.compile(r"\bkind\s*:(?!:)|[{,]\s*kind\s*[,}]|\.kind\b")
# A library's own case, and after it the receipt.
CASE = r"(?:\bCategory::Memory|\bFromHexError::OutOfMemory\)?|\b(?:ErrorKind|OpenError)::OutOfMemory)"
DOOR = re.compile(rf"{CASE}\s*=>\s*\{{?\s*(?:return\s+)?[\w:(]*NoMemory::from\(AllocError\)\)*(?=[,;\s}}])")
WORDS = {
    "a refused growth is made up": re.compile(r"\bAlloc(?:Error|Failed)\b"),
    "a library's want of memory is made up": re.compile(r"\bOutOfMemory\b(?!\s*\)?\s*(?:=>|\{))|\bCategory::Memory\b(?!\s*=>)"),
    "a refused formatting is made up": re.compile(r"\bfmt::Error\b(?!\s*>)|\bErr\(Error\)"),
    "code is unsafe": re.compile(r"(?<!#\[)\bunsafe\b"),
    "a number is written into a fault": re.compile(r"\.code\s*(?:[-+*/%|&^]|<<|>>)?=(?![=>])|&mut\s+[\w.]+\.code\b"),
    "a receipt outlives its call": re.compile(r"(?<!')\bstatic\b[^;]*\b(?:NoMemory|Refusal|\w*Fault)\b"),
}
# Another name for one of the words: by `as`, by a glob, by a part of a path that no longer shows what it is, or by a macro.
USE = re.compile(r"^[ \t]*(?:pub(?:\(\w+\))? )?use [^;]*;", re.M)
OTHER_NAME = re.compile(
    r"\b(?:Alloc(?:Error|Failed)|NoMemory|Refusal) as\b|\bOutOfMemory\b|\b(?:alloc|fmt|ErrorKind|OpenError|Category|FromHexError)::\*"
    r"|\bfmt::(?:\{[^}]*\b)?Error\b|\b(?:alloc|fmt|Category|ErrorKind|OpenError|FromHexError) as\b"
)
GROWTH = re.compile(r"\b(?:(?:try_)?reserve(?:_exact)?|with_capacity|from_elem|resize|repeat)\s*(?:::<[^>]*>)?(?=\()|\bvec!\s*(?=[(\[])")
# What none can meet: the greatest number, one shifted far, or one of ten digits or more.
UNMET = r"\bMAX\b|<<|\b\d(?:_?\d){9,}|\b0x(?:_?[0-9a-fA-F]){9,}"
CONSTANT = re.compile(r"\bconst\s+(\w+)\s*:[^=;]*=([^;]*);")
TYPE = re.compile(r"^(?:pub(?:\(\w+\))? )?(?P<kind>struct|enum|type)\s+(?P<name>\w+)", re.M)
LITERAL = re.compile(r'"(?:\\.|[^"\\])*"')


def blank(found):
    return re.sub(r"[^\n]", " ", found[0])


def lines_with(text, pattern):
    """The line numbers at which a pattern is found."""
    return [text.count("\n", 0, it.start()) + 1 for it in pattern.finditer(text)]


def growths_unmet(code, constants):
    """The line numbers of growths whose arguments name what none can meet, or a constant that does."""
    unmet = re.compile("|".join([UNMET, *(rf"\b{name}\b" for name in sorted(constants))]))
    for growth in GROWTH.finditer(code):
        depth, at = 0, growth.end()
        for it in re.compile(r"[][()]").finditer(code, at):
            depth += 1 if it[0] in "[(" else -1
            if not depth:
                if unmet.search(code[at : it.end()]):
                    yield code.count("\n", 0, growth.start()) + 1
                break


def constants_unmet(codes):
    """The names of the constants whose values name what none can meet, or another such constant."""
    values, found = dict(pair for code in codes for pair in CONSTANT.findall(code)), set()
    while more := {it for it, said in values.items() if re.search("|".join([UNMET, *map(re.escape, found)]), said)} - found:
        found |= more
    return found


def told_of(text, constants=()):
    """What the rule refuses in a file's text: the number of each line, and what is wrong there. And how many doors, and how many
    types of refused growths, the file has."""
    without = without_comments(text)
    told = [(line, "a word has another name") for use in USE.finditer(without) if OTHER_NAME.search(use[0])
            for line in [without.count("\n", 0, use.start()) + 1]]
    code = USE.sub(blank, without)
    doors, types = len(DOOR.findall(code)), len(TYPES.findall(code))
    code = TYPES.sub(blank, DOOR.sub(blank, code))
    for what, pattern in WORDS.items():
        told += [(line, what) for line in lines_with(code, pattern)]
    told += [(line, "a growth that none can meet is asked for") for line in growths_unmet(code, constants)]
    return told, doors, types


def members_of(code):
    """The types of a file, each with the words of its members."""
    for it in TYPE.finditer(code):
        if it["kind"] == "type":
            end = code.find(";", it.end())
        else:
            begun = re.compile(r"[{(;]").search(code, it.end())
            end = closing(code, begun.start()) if begun[0] == "{" else code.find(";", it.end())
        body = code[it.end() : end]
        # of an enum, what its variants hold, and not their names
        said = " ".join(re.findall(r"[({][^{]*?[)}]", body[body.find("{") + 1 :])) if it["kind"] == "enum" else body
        yield it["name"], set(re.findall(r"\w+", said))


def holders_in(codes):
    """The types, by their crates, that have a receipt as a member, or a type that has: `codes` has texts by crate and file."""
    members = {(crate, name): words for (crate, _), code in codes.items() for name, words in members_of(code)}
    names, found = set(RECEIPTS), set()
    while more := {at for at, words in members.items() if words & names} - found:
        found |= more
        names |= {name for _, name in more}
    return found


def texts_in(path, text):
    """How often a file has the text, and the lines at which it stands in a function without a receipt."""
    if "no memory" not in text:
        return 0, []
    functions, count, bare = functions_in(path, without_comments(text))[0], 0, []
    for literal in LITERAL.finditer(re.sub(r"//[^\n]*", blank, text)):
        at = literal.start()
        within = next((it for it in functions if it.start <= at < it.end), None)
        is_clause = within is not None and at < within.end - len(within.body)
        if "no memory" in literal[0] and not is_clause:
            count += 1
            is_given = within is not None and (OF_RECEIPT.search(within.head) or ARM.search(text[text.rfind("\n", 0, at) : at]))
            if path != MAKER and not is_given:
                bare.append(text.count("\n", 0, literal.start()) + 1)
    return count, bare


def is_test(crate):
    return crate.startswith(("test_", "time_", "embed_", "law_"))


def tell_of_words(texts, tell):
    """The words of each file. Answers how many types of refused growths were met."""
    doors, types, asked = {}, 0, 0
    for crate in {crate for crate, _ in texts}:
        its = {path: text for (owner, path), text in texts.items() if owner == crate}
        constants = constants_unmet([without_comments(text) for text in its.values()])
        for path, text in its.items():
            told, its_doors, its_types = told_of(text, constants)
            doors[crate] = doors.get(crate, 0) + its_doors
            types += its_types
            for line, what in told:
                if what.startswith("a growth") and crate == ASKS_FOR_ALL[0] and is_within(path, text, line):
                    asked += 1
                else:
                    tell(f"crates/{path}:{line}: {what}")
    for crate in sorted(doors.keys() | DOORS.keys()):
        if doors.get(crate, 0) != DOORS.get(crate, 0):
            tell(f"crates/{crate}: {doors.get(crate, 0)} doors for a library's want of memory, and not {DOORS.get(crate, 0)}")
    if asked != 1:
        tell(f"crates/{ASKS_FOR_ALL[0]}: {asked} growths that none can meet stand in `{ASKS_FOR_ALL[1]}`, and not 1")
    return types


def tell_of_kinds(texts, tell):
    """The kinds of the answers that C gets. Answers how many are made."""
    made = 0
    for (crate, path), text in texts.items():
        code = without_comments(text)
        if crate == OF_KINDS:
            made += len(MADE_KIND.findall(code))
            code = MADE_KIND.sub(blank, DECLARED_KIND.sub(blank, code))
        elif crate != EXPORTS:
            continue
        for line in lines_with(code, OTHER_KIND):
            tell(f"crates/{path}:{line}: the kind of an answer is made up")
    return made


def is_within(path, text, line):
    """Whether a line stands in the function that gives tests their receipt."""
    for it in functions_in(path, without_comments(text))[0]:
        if it.name == ASKS_FOR_ALL[1] and "NoMemory>" in it.head:
            return text.count("\n", 0, it.start) < line <= text.count("\n", 0, it.end) + 1
    return False


def tell_of_holders(texts, tell):
    """The types that hold a receipt are those that are listed. Answers how many there are."""
    found = holders_in({at: without_comments(text) for at, text in texts.items() if not is_test(at[0])})
    listed = {(crate, name) for crate, names in HOLDERS.items() for name in names}
    for crate, name in sorted(found - listed):
        tell(f"crates/{crate}: {name} holds a receipt, and isn't in HOLDERS of checks/receipts.py")
    for crate, name in sorted(listed - found):
        tell(f"checks/receipts.py: {name} of {crate} holds no receipt")
    return len(found)


def tell_of_texts(texts, tell):
    """The text stands where it may."""
    for (crate, path), text in texts.items():
        count, bare = texts_in(path, text) if not is_test(crate) else (0, [])
        if count != TEXTS.get(path, 0):
            tell(f"crates/{path}: the text `no memory` stands {count} times, and not {TEXTS.get(path, 0)}")
        for line in bare if path in TEXTS else ():
            tell(f"crates/{path}:{line}: the text `no memory` stands in a function that is given no receipt")


def read(texts, tell):
    """Reports what the rule refuses in these texts, by crate and path below crates/. Returns how much it met."""
    try_rule(tell)
    maker = texts.get(("pb_base", MAKER), "")
    for said, count in MADE.items():
        if maker.count(said) != count:
            tell(f"crates/{MAKER}: `{said}` stands {maker.count(said)} times, and not {count}")
    met = tell_of_words(texts, tell) + tell_of_holders(texts, tell)
    if not tell_of_kinds(texts, tell):
        tell(f"crates/{OF_KINDS}: no kind of an answer is made")
    numbers = texts.get((OF_KINDS, NUMBERS), "").count("KindNumber { number")
    if numbers != NUMBER_COUNT:
        tell(f"crates/{NUMBERS}: {numbers} kinds of an answer have a number, and not {NUMBER_COUNT}")
    tell_of_texts(texts, tell)
    return met


# Lines that make a want of memory up, each of which the rule has to report, and lines that are right.
MADE_UP = """
return Err(DecodeFault::from(std::alloc::AllocFailed { value: () }));
return Err(NoMemory::from(AllocError));
let _ = Vec::<u8>::with_capacity(alloc, usize::MAX)?;
impl fmt::Display for Fails { fn fmt<W: fmt::Write>(&self, _f: &mut fmt::Formatter<W>) -> fmt::Result { Err(fmt::Error) } }
fn shown() -> fmt::Result { Err(Error) }
use std::alloc::AllocError as Refused;
use std::alloc::*;
use std::fmt::Error;
use std::fmt::{self, Error};
use std::io::ErrorKind::*;
use pb_base::NoMemory as Nothing;
struct Kept { refused: AllocError }
type Kept = AllocError;
struct Kept { made: u8, refused: Result<u8, AllocError> }
static LAST: Mutex<Option<NoMemory>> = Mutex::new(None);
static mut LAST: Option<RunFault> = None;
fn made(kind: u8) -> NoMemory { match kind { _ => NoMemory::from(AllocError), } }
let io = io::Error::from(ErrorKind::OutOfMemory);
let kind = FromHexError::OutOfMemory;
let kind = Category::Memory;
fault.code = 1;
fault.code += 1;
replace(&mut fault.code, 1);
unsafe { core::mem::zeroed() }
let all = Vec::<u8>::with_capacity(
    alloc,
    usize::MAX,
)?;
let all = words.reserve(slots << 40)?;
let all = words.reserve(1_000_000_000_000)?;
const ALL: usize = usize::MAX; fn all() { words.reserve(ALL)?; }
let all = vec![in alloc; 0u8; usize::MAX]?;
let f = |e: AllocError| NoMemory::from(e);
let Err(AllocError) = words.push(1) else { return };
"""
RIGHT = """
#[unsafe(no_mangle)]
impl From<AllocError> for NoMemory {
fn from(e: AllocError) -> LineFault<C> {
fn push(&mut self, it: u8) -> Result<(), AllocFailed<u8>>
fn added<'a>(one: Result<A<'a>, AllocError>, other: Result<A<'a>, AllocError>) {
let words: Result<Vec<String>, AllocError> = args.collect(rt.alloc());
Category::Memory => Err(ManifestCode::Memory(NoMemory::from(AllocError))),
Err(error) if error.kind() == io::ErrorKind::OutOfMemory => { return Err(NoMemory::from(AllocError)) }
OpenError::OutOfMemory => Failure::NoMemory(NoMemory::from(AllocError)),
if error.kind() == ErrorKind::OutOfMemory {
let all = Vec::with_capacity(alloc, words.len())?;
if fault.code == 1 {
let name: &'static str = fault.name();
"""

# The same of kinds, in the crate whose calls C gets.
KINDS_MADE_UP = """
        kind: 2,
        kind: AnswerKind::Refused.number() + 1,
        kind: KindNumber { number: 2 },
Reached { slot, kind, code }
verdict.kind = 2;
replace(&mut verdict.kind, 2);
"""
KINDS_RIGHT = """
        kind: AnswerKind::NoMemory(refused).number(),
        kind: KindNumber::asks(),
    pub kind: KindNumber,
fn plain_verdict(kind: AnswerKind, observers: u32, code: u32) -> ManifestVerdict
"""


def lines_of(said):
    """The lines of a table, where those that are indented, and what closes them, belong to the line before."""
    return [it.strip("\n") for it in re.split(r"\n(?![ \t\n]|\))", said) if it.strip()]


def try_rule(tell):
    """Holds the rule to lines that it must report, and to lines that it must not."""
    for is_made_up, said in [(True, MADE_UP), (False, RIGHT)]:
        for line in lines_of(said):
            if bool(told_of(line, constants_unmet([line]))[0]) != is_made_up:
                tell(f"checks/receipts.py: {'nothing' if is_made_up else 'something'} is found in '{line}'")
    for is_made_up, said in [(True, KINDS_MADE_UP), (False, KINDS_RIGHT)]:
        for line in said.strip("\n").split("\n"):
            found = []
            tell_of_kinds({(OF_KINDS, ""): line + "\n"}, found.append)
            if bool(found) != is_made_up:
                tell(f"checks/receipts.py: {'nothing' if is_made_up else 'something'} is found in '{line}'")
