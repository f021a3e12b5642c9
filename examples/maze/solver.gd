class_name Solver

# Finds a shortest way through a maze, breadth first.

var maze: Maze
# For each place that was reached, the one before it.
var before: Dictionary[int, int] = {}

func _init(of: Maze):
	maze = of

func way() -> Array[int]:
	var start := maze.place("S")
	var goal := maze.place("G")
	var first := maze.number(start[0], start[1])
	var last := maze.number(goal[0], goal[1])
	before = { first: first }
	var waiting: Array[int] = [first]
	var next := 0
	while next < waiting.size() and not before.has(last):
		visit(waiting[next], waiting)
		next += 1
	if not before.has(last):
		return []
	return back_from(last)

func visit(at: int, waiting: Array[int]) -> void:
	for step: Array in Maze.STEPS.values():
		var row: int = at / maze.width + step[0]
		var column: int = at % maze.width + step[1]
		if not maze.is_open(row, column):
			continue
		var place := maze.number(row, column)
		if before.has(place):
			continue
		before[place] = at
		waiting.append(place)

func back_from(last: int) -> Array[int]:
	var places: Array[int] = [last]
	while before[places[-1]] != places[-1]:
		places.append(before[places[-1]])
	places.reverse()
	return places
