"""Scripts that a careless machine would be slow on, or would not end on, or would overrun its stack on."""
from typing import Dict, List, NamedTuple

from program import Answer

DEEP = "main.gd:{}: error R13: calls too deep\n"
# The most levels of containers that are printed.
LEVELS = 16
TOKENS = 65536


class Run(NamedTuple):
    what: str
    # bytes by path
    files: Dict[str, bytes]
    words: List[str]
    wanted: Answer


def run(what, script, output, status=0, options=""):
    """A run of one script."""
    words = ["run", "main.gd", *options.split()]
    return Run(what, {"main.gd": script.encode()}, words, Answer(status, output.encode()))


def nested(opened, within, closed):
    """A container that holds itself, as it is printed."""
    return opened * LEVELS + within + closed * LEVELS


CONTAINERS = [
    run("an array that holds itself is printed",
        """\
func test():
	var a := []
	a.append(a)
	print(a)
	print(str(a).length(), " ", a == a, " ", a.find(a))
""",
        f"{nested('[', '[...]', ']')}\n{2 * LEVELS + 5} true 0\n"),
    run("a dictionary that holds itself is printed",
        """\
func test():
	var d := {}
	d.d = d
	print(d)
""",
        f"{nested('{ ' + chr(34) + 'd' + chr(34) + ': ', '{...}', ' }')}\n"),
    run("two arrays that hold themselves are compared",
        """\
func test():
	var a := []
	a.append(a)
	var b := []
	b.append(b)
	print(a == b)
""",
        "main.gd:6:10: error R19: too deep to compare\n", 3),
    run("an array is looked for among arrays that hold themselves",
        """\
func test():
	var a := []
	a.append(a)
	var b := []
	b.append(b)
	print(a.has(b))
""",
        "main.gd:6:10: error R19: too deep to compare\n", 3),
    run("an array is added to itself",
        """\
func test():
	var a := [1, 2]
	for i in 3:
		a.append_array(a)
	print(a.size())
	a.insert(0, a)
	a.erase(a)
	print(a.size())
""",
        """\
16
16
"""),
    run("a loop adds to the array that it goes over",
        """\
func test():
	var a := [1]
	for x in a:
		a.append(x)
""", "out of turns\n", 4, "--turns 100000"),
    run("a loop empties the array that it goes over",
        """\
func test():
	var a := [1, 2, 3]
	for x in a:
		a.clear()
		print(x, a)
""", "1[]\n"),
    run("a loop erases the keys that it goes over",
        """\
func test():
	var d := {1: 2, 3: 4}
	for k in d:
		d.clear()
		print(k, d)
""", """\
1{  }
3{  }
"""),
    run("an object in an array that holds itself leaks",
        """\
func test():
	var a := [RefCounted.new()]
	a.append(a)
""", """\
freed main.gd#1
leaked RefCounted#2
""", 0, "--frees"),
    run("an array is no key, nor is one that holds itself",
        """\
func test():
	var a = []
	a.append(a)
	var d := {}
	d[a] = 1
""", "main.gd:5:3: error R15: bad key\n", 3),
    run("a chain of 100,000 arrays is given up",
        """\
func test():
	var a = []
	for i in 100000:
		a = [a]
	print(a)
	a = null
	print("gone")
""",
        f"{nested('[', '[...]', ']')}\ngone\n"),
    run("a chain of 20,000 objects is given up",
        """\
class N:
	var next
func test():
	var a = null
	for i in 20000:
		var n := N.new()
		n.next = a
		a = n
	a = null
	print("gone")
""",
        "".join(f"freed N#{serial}\n" for serial in range(20001, 1, -1)) + """\
gone
freed main.gd#1
""", 0, "--frees"),
]

SIGNALS = [
    run("targets connect more targets while a signal is emitted",
        """\
class L:
	var main
	func _init(m):
		main = m
	func hit():
		main.grow()
signal s
var kept := []
"""
        """\
func grow():
	var l := L.new(self)
	kept.append(l)
	s.connect(l.hit)
"""
        """\
func test():
	grow()
	for i in 10:
		s.emit()
	print(kept.size())
""", "1024\n"),
    run("a target connects itself once more while it is called, one-shot",
        """\
signal s
var n := 0
func hit():
	n += 1
	s.connect(hit, CONNECT_ONE_SHOT)
"""
        """\
func test():
	s.connect(hit, CONNECT_ONE_SHOT)
	for i in 5:
		s.emit()
	print(n, s.is_connected(hit))
""", "5true\n"),
    run("a target disconnects those behind it, which are called yet",
        """\
signal s
func a():
	print("a")
	s.disconnect(b)
func b():
	print("b")
"""
        """\
func test():
	s.connect(a)
	s.connect(b)
	s.emit()
	s.emit()
""", """\
a
b
a
"""),
    run("a target gives up the object that emits",
        """\
class E:
	signal s
var e := E.new()
func hit(n):
	e = null
	print("hit ", n)
"""
        """\
func test():
	e.s.connect(hit)
	e.s.emit(1)
	print(e)
""", """\
freed E#2
hit 1
<null>
freed main.gd#1
""", 0, "--frees"),
    run("a signal is emitted by its own target without end",
        """\
signal s(n)
func hit(n):
	s.emit(n + 1)
func test():
	s.connect(hit)
	s.emit(0)
""", DEEP.format("3:4"), 3),
    run("two signals emit each other without end",
        """\
signal s
signal t
func on_s():
	t.emit()
func on_t():
	s.emit()
"""
        """\
func test():
	s.connect(on_s)
	t.connect(on_t)
	s.emit()
""", DEEP.format("4:4"), 3),
]

CALLS = [
    run("an _init makes its own class without end",
        """\
class A:
	var other
	func _init():
		other = A.new()
func test():
	A.new()
""", DEEP.format("4:13"), 3),
    run("a main script makes itself without end",
        """\
class_name Main
var other = Main.new()
func test():
	pass
""", DEEP.format("2:18"), 3),
    run("a static initial value makes an object that reads it",
        """\
class A:
	var n = Kept.kept
class Kept:
	static var kept = A.new()
func test():
	print(Kept.kept.n)
""", "<null>\n"),
    run("two getters read each other without end",
        """\
var a:
	get:
		return b
var b:
	get:
		return a
func test():
	print(a)
""", DEEP.format("3:10"), 3),
    run("a setter writes to another object without end",
        """\
class A:
	var to: A
	var n := 0:
		set(v):
			to.n = v + 1
func test():
	var a := A.new()
	a.to = a
	a.n = 1
""", DEEP.format("5:7"), 3),
    run("a Callable calls itself without end",
        """\
func f(c):
	return c.call(c)
func test():
	f(f)
""", DEEP.format("2:11"), 3),
    run("a chain of 300 classes, each calling its base",
        """\
class C0:
	func f():
		return 0
"""
        + "".join(f"class C{n} extends C{n - 1}:\n\tfunc f():\n\t\treturn super() + 1\n" for n in range(1, 301))
        + """\
func test():
	print(C300.new().f())
""", "300\n"),
    run("a loop that never ends", """\
func test():
	while true:
		pass
""", "out of turns\n", 4, "--turns 1000000"),
]

SIZES = [
    run("a function of the limit of tokens", "func test():\n" + "\tpass\n" * ((TOKENS - 8) // 2), ""),
    run("a function above the limit of tokens", "func test():\n" + "\tpass\n" * ((TOKENS - 8) // 2 + 1),
        "too large: function main.gd:1:6\n", 8),
    run("initial values above the limit of tokens",
        """\
func test():
	pass
""" + "".join(f"var v{n}=1\n" for n in range(TOKENS + 1)), "too large: function main.gd:1:1\n", 8),
    run("no main comes before a function above the limit",
        "func tests():\n" + "\tpass\n" * (TOKENS // 2), "no main: main.gd\n", 9),
    run("lines that are longer than the buffer of the output",
        """\
func test():
	for n in [65534, 65535, 65536, 65537, 70000]:
		print("x".repeat(n))
""",
        "".join("x" * size + "\n" for size in [65534, 65535, 65536, 65537, 70000])),
    run("many lines", """\
func test():
	for n in 20000:
		print(n)
""", "".join(f"{n}\n" for n in range(20000))),
    run("a constant of 20,000 elements",
        "const ALL = [\n" + "".join(f"\t{n},\n" for n in range(20000)) + """\
]
func test():
	var sum := 0
	for n in ALL:
		sum += n
	print(sum)
""",
        f"{sum(range(20000))}\n"),
    run("an enum of 5,000 values",
        "enum E {\n" + "".join(f"\tV{n},\n" for n in range(5000)) + """\
}
func test():
	print(E.V4999, E.size(), E.keys()[-1])
""", "49995000V4999\n"),
    run("a match of 2,000 branches",
        """\
func told(v):
	match v:
""" + "".join(f"\t\t{n}: return \"n{n}\"\n" for n in range(2000)) + """\
func test():
	print(told(1999), told(2000))
""", "n1999<null>\n"),
]

RUNS = [*CONTAINERS, *SIGNALS, *CALLS, *SIZES]
