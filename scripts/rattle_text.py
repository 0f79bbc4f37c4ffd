"""The text of a source of Rattle: its functions, what these promise, and the `impl`s in which they stand."""

import pathlib
import re

FUNCTION = re.compile(r"^(\s*)(?:pub(?:\([^)]*\))? )?(?:final )?(?:const )?(?:unsafe )?(?:extern \"C\" )?fn (\w+)")
IMPL = re.compile(r"^(?:pub )?(?:unsafe )?(impl|trait)\b(<[^>]*>(?=\s))?\s*(.*?)\s*\{?$")
CLAUSE = re.compile(r"\s*(requires|ensures|ghost)\b")


def function_lines(lines, at):
    """The first and the last line of the function in which a line stands."""
    first = next(k for k in range(at, -1, -1) if FUNCTION.match(lines[k]))
    end = FUNCTION.match(lines[first])[1] + "}"
    return first, next(k for k in range(first, len(lines)) if lines[k] == end)


def body_lines(lines, first):
    """The lines that open and end the body of the function that begins in this line; None if it has none, or none in lines of its own."""
    indent = FUNCTION.match(lines[first])[1]
    has_clauses = False
    for number in range(first, len(lines)):
        line = lines[number]
        has_clauses = has_clauses or bool(CLAUSE.match(line))
        is_at_its_side = line.startswith(indent) and not line.startswith(indent + " ")
        if line == indent + "{" or (line.endswith("{") and is_at_its_side and not has_clauses):
            return number, next(k for k in range(number, len(lines)) if lines[k] == indent + "}")
        if number > first and (FUNCTION.match(line) or (line and not line.startswith(indent)) or line == indent + "}"):
            break
    return None


def clauses_of(lines):
    """The names of what a function ensures, if all have names."""
    start, _ = body_lines(lines, 0)
    found = [re.match(r"\s*ensures(?: (\w+))?", line) for line in lines[:start]]
    return [it[1] for it in found if it] if all(it[1] for it in found if it) else []


def with_clause_alone(lines, name):
    """A function without what it ensures beside the clause of this name, if one has it."""
    start, _ = body_lines(lines, 0)
    begins = [number for number in range(start) if CLAUSE.match(lines[number]) or lines[number].lstrip().startswith("//")]
    found = lines[: min(begins, default=start)]
    for begin, end in zip(begins, [*begins[1:], start]):
        if not lines[begin].lstrip().startswith("ensures") or re.match(rf"\s*ensures {name}\b", lines[begin]):
            found += lines[begin:end]
    # (a goal has its clause's name only where there are several)
    return [*found, f"{FUNCTION.match(lines[0])[1]}    ensures nothing {{ Unit {{0}} }}", *lines[start:]]


def is_named_elsewhere(lines, first):
    """Whether a function is bound to a text that isn't its own: to others that it calls in a circle, or to another language."""
    return 'extern "C"' in lines[first] or any(re.search(r"cycle|no_mangle|test\b|export", it) for it in attributes_above(lines, first))


def can_be_emptied(lines, first):
    """Whether a function can stand without its body: the compiler evaluates none, and finds no type in it."""
    body = body_lines(lines, first)
    of_its_body = body and (" const fn " in f" {lines[first].strip()}" or any("-> impl" in it for it in lines[first : body[0] + 1]))
    return bool(body) and not of_its_body and not is_named_elsewhere(lines, first)


def above_function(lines, first):
    """The lines right above a function that belong to it: its attributes, and what is told of it."""
    start = first
    while start > 0 and lines[start - 1].strip() and not lines[start - 1].endswith(("{", "}", ";")):
        start -= 1
    return lines[start:first]


def attributes_above(lines, first):
    """The attributes right above a function, without what is told of it there."""
    indent = FUNCTION.match(lines[first])[1]
    return [it for it in above_function(lines, first) if it.startswith(indent) and not it.lstrip().startswith("//")]


def ask_no_tactic(lines, first):
    """Has the checker try no tactic on the goals of a function, in the place of those that it asks for."""
    above = first - len(above_function(lines, first))
    text = "".join(f"{it}\n" for it in lines[above:first])
    text = re.sub(r"^ *#\[tactic\(.*?\)\]\n", "", text, flags=re.MULTILINE | re.DOTALL)
    lines[above:first] = [*text.split("\n")[:-1], FUNCTION.match(lines[first])[1] + "#[tactic(none)]"]


def is_inherent(lines, first):
    """Whether a function stands by itself, or in an `impl` that is of no trait."""
    if not FUNCTION.match(lines[first])[1]:
        return True
    head = next((k for k in range(first, -1, -1) if IMPL.match(lines[k])), None)
    if head is None:
        return False
    kind, _, text = IMPL.match(" ".join(" ".join(lines[head:first]).partition("{")[0].split())).groups()
    return kind == "impl" and " for " not in text


def function_at(file, lines, at):
    """The function in which a line stands, as the checker prints it: its path below the crate, of a method only the end of it."""
    start = next((k for k in range(at, -1, -1) if FUNCTION.match(lines[k])), None)
    if start is None or any(line == "}" for line in lines[start:at]):
        return None
    indent, name = FUNCTION.match(lines[start]).groups()
    head = next((k for k in range(start, -1, -1) if IMPL.match(lines[k])), None) if indent else None
    if head is None:
        return "::".join([*module_of(file), name])
    text = " ".join(" ".join(lines[head:start]).partition("{")[0].split())
    return f"{type_name(*IMPL.match(text).groups())}::{name}"


def module_of(file):
    return [it for it in pathlib.PurePath(file).with_suffix("").parts[1:] if it not in ("lib", "main")]


def type_name(kind, parameters, text):
    """What stands for the type of an impl in a function's path: `impl Sub for Lanes` is `LanesSub`, and one for each type,
    as `impl<R: Read> Source for R`, is `AnySource`; `impl From<io::Error> for Failed` is `FailedFromIoError`, and
    `impl Keeper for Vec<Segment>` is `VecSegmentKeeper`."""
    bare = lambda it: re.sub(r"^(\w+::)+(?=\w+<)|'\w+", "", it)
    plain = lambda it: re.sub(r"\W", "", re.sub(r"\b\w+(?=::)", lambda module: module[0].capitalize(), bare(it)))
    trait, _, of = text.partition(" for ")
    head = lambda it: re.match(r"[\w:]+", it)[0].rpartition("::")[2]
    if kind == "trait" or not of:
        return head(text)
    own = re.findall(r"\w+", parameters or "")
    given = "".join(it for it in re.findall(r"\w+", bare(of.partition("<")[2])) if it not in own)
    return ("Any" if head(of) in own else head(of) + given) + plain(trait if "<" in trait else head(trait))
