"""The projects that the benchmarks of `check` are timed on, files by path."""
import random

MIB = 1024 * 1024
FILE = 256 * 1024

KINDS = {"int": "0", "String": '""', "Array": "[]", "Dictionary": "{}", "bool": "false"}
WORDS = ["health", "speed", "target", "inventory", "position", "count", "level", "enemy", "name", "state"]


def ordinary_function(source, number):
    """The lines of one function that has a like in Python."""
    pick = lambda: source.choice(WORDS)
    first, second, third, kind = pick(), pick(), pick(), source.choice(list(KINDS))
    return f"""
## Moves the {first} towards the {second}.
func update_{first}_{number}({second}: int, {third}_left: {kind} = {KINDS[kind]}) -> int:
\tvar total := {source.randrange(1000)}
\tvar {first}_names: Array[String] = ["{second}", "{third}", 'caf\u00e9 {number}']
\tfor index in range({second}):
\t\tif index % 2 == 0 and not is_done:
\t\t\ttotal += index * ({number} - {second}) # the {third} counts twice
\t\telif {first}_names[index % 3] == "{pick()}":
\t\t\tcontinue
\t\telse:
\t\t\tprint("{first}: ", total, ", ", {first}_names)
\tmatch total:
\t\t0, 1:
\t\t\treturn {source.randrange(10 ** 6)}
\t\t_:
\t\t\tpass
\twhile total > 0x{source.randrange(2 ** 16):x}:
\t\ttotal -= 1 if is_done else 2
\treturn total
"""


def filled(head, part, source, most):
    """A text of this head and of as many parts as fit within so many bytes."""
    parts, length, number = [head], len(head.encode()), 0
    while True:
        text = part(source, number)
        length += len(text.encode())
        if length > most:
            return "".join(parts)
        parts.append(text)
        number += 1


def ordinary(size):
    """Scripts of functions alone, of this many bytes together, or a little fewer."""
    source = random.Random(size)
    head = 'extends RefCounted\n\nvar is_done: bool = false\nconst LIMITS = {"low": 1, "high": [2, 3]}\n'
    return {f"script_{n:02}.gd": filled(head, ordinary_function, source, FILE).encode() for n in range(size // FILE)}


def game_class(source, number):
    """A class of a game with its members: an inner one, since a file has one class of its own."""
    word = source.choice(WORDS)
    return f"""
class Unit{number} extends Actor:
\tenum Mode {{ IDLE, WALK = 5, FIGHT }}
\tconst LIMIT := {source.randrange(1, 100)}
\tstatic var made := 0
\tvar mode: Mode = Mode.IDLE
\tvar {word}_left: int = 3:
\t\tset(value):
\t\t\t{word}_left = clampi(value, 0, LIMIT)
\tvar parts: Array[Part] = []
\tvar notes := {{}}
\tvar owner = null
\tfunc _init(title: String, start: int = 1):
\t\tname = title
\t\t{word}_left = start
\t\tmade += 1
\tfunc add(part: Part, n := 1) -> Part:
\t\tif notes.has(part.title):
\t\t\tvar old: Part = notes[part.title]
\t\t\told.count = mini(old.count + n, LIMIT)
\t\t\tchanged.emit(part.title, old.count)
\t\t\treturn old
\t\tparts.append(part)
\t\tnotes[part.title] = part
\t\tchanged.emit(part.title, part.count)
\t\treturn part
\tfunc total() -> int:
\t\tvar sum := 0
\t\tfor part in parts:
\t\t\tsum += part.count * {source.randrange(2, 9)}
\t\tif owner != null and owner.{word}_left > sum:
\t\t\treturn owner.total() as int
\t\treturn sum
\tfunc act(kind, event: Dictionary) -> String:
\t\tmatch kind:
\t\t\t0, 1:
\t\t\t\tmode = Mode.WALK
\t\t\t"{word}":
\t\t\t\treturn "%s:%d" % [name, {word}_left]
\t\t\t[var first, ..]:
\t\t\t\tprint(first, event.get("{word}", {number}))
\t\t\t{{"to": var place}} when mode != Mode.FIGHT:
\t\t\t\tcome(place, event.size() + parts.size())
\t\treturn describe() + ("!" if mode == Mode.FIGHT else ".")
"""


GAME_HEAD = """extends RefCounted

class Part:
\tvar title: String
\tvar count: int = 1
class Actor:
\tsignal changed(title: String, count: int)
\tvar name := ""
\tvar at := 0
\tfunc come(place, steps: int) -> void:
\t\tif place is int:
\t\t\tat += steps
\tfunc describe() -> String:
\t\treturn "%s at %d" % [name, at]
"""


def game(size):
    """Scripts of classes, of this many bytes together, or a little fewer."""
    source = random.Random(size)
    return {f"game_{n:02}.gd": filled(GAME_HEAD, game_class, source, FILE).encode() for n in range(size // FILE)}


# ---- shapes that a careless table or walk would be slow on


def short(number):
    """A short name."""
    letters = "abcdefghijklmnopqrstuvwxyz"
    text = "c"
    while True:
        text += letters[number % 26]
        number //= 26
        if number == 0:
            return text


def one_file(lines):
    return {"main.gd": "".join(f"{line}\n" for line in lines).encode()}


def constants(count=50_000):
    """Constants, each of which names the next."""
    return one_file([f"const {short(n)} = {short(n + 1)}" for n in range(count)] + [f"const {short(count)} = 1"])


def heirs(count=1024):
    """Files whose classes extend one another in one chain, each with names of classes far along it."""
    files = {}
    for n in range(count):
        base = f"extends K{n + 1}\n" if n + 1 < count else ""
        functions = [
            f"func f{n}_{k}(x: int) -> int:\n\tprint(x, g{min(n + k * 97, count - 1)})\n\treturn x + {k}\n" for k in range(10)
        ]
        files[f"k{n:04}.gd"] = f"class_name K{n}\n{base}var g{n} := {n}\n{''.join(functions)}".encode()
    return files


def members(count=40_000):
    """One class with many members, all of them used."""
    uses = [line for n in range(0, count, 2) for line in ([f"func u{n}():"] if n % 1000 == 0 else []) + [f"\t{short(n)} = {short(n + 1)}"]]
    return one_file([f"var {short(n)} = {n}" for n in range(count)] + uses)


def enum_values(count=40_000):
    """An enum of many values."""
    return one_file(["enum E {"] + [f"{short(n)}," for n in range(count)] + ["}", "func test():"] + [f"\tprint(E.{short(n)})" for n in range(0, count, 40)])


def long_function(locals_=10_000):
    """One function with many locals."""
    return one_file(["func test(x: int):", f"\tvar {short(0)} := x"] + [f"\tvar {short(n)} := {short(n - 1)}" for n in range(1, locals_)])


def nested(times=900):
    """Blocks, brackets, inner classes and typed names as deep as they may be."""
    tabs = lambda depth: "\t" * depth
    classes = [f"{tabs(d)}class N{d}:" for d in range(30)] + [f"{tabs(30)}var x := 1"]
    lines = list(classes)
    names = ".".join(f"N{d}" for d in range(30))
    for n in range(times):
        lines += [f"func f{n}(x: {names}):"] + [f"{tabs(d)}if x != null:" for d in range(1, 31)]
        lines += [f"{tabs(31)}print({'(' * 30}{n}{')' * 30})"]
    return one_file(lines)


def unknown_names(count=30_000):
    """A project with many diagnostics."""
    lines = [line for n in range(count) for line in ([f"func u{n}():"] if n % 1000 == 0 else []) + [f"\tprint({short(n)})"]]
    return one_file(lines)


def long_literals(lines=5000, keys=90):
    """Constants that are dictionaries with many keys."""
    line = lambda n: f"const d{n} = {{{','.join(f'{k}:{k % 7}' for k in range(keys))}}}"
    each = 1250
    return {f"d{at}.gd": "".join(f"{line(n)}\n" for n in range(at, min(at + each, lines))).encode() for at in range(0, lines, each)}


HOSTILE = {
    "50,000 constants, each naming the next": constants,
    "1,024 classes in one chain of bases": heirs,
    "a class with 40,000 members": members,
    "an enum of 40,000 values": enum_values,
    "a function with 10,000 locals": long_function,
    "blocks, brackets and classes 30 deep": nested,
    "30,000 diagnostics": unknown_names,
    "5,000 constant dictionaries of 90 keys": long_literals,
}
