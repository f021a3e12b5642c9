# Tests of the solver.

func steps(text: String) -> int:
	return Solver.new(Maze.new(text)).way().size() - 1

func test():
	assert(steps("SG") == 1, "beside each other")
	assert(steps("S  G") == 3, "along a row")
	assert(steps("S#G") == -1, "behind a wall")
	assert(steps("S#\n  \n#G") == 3, "round a corner")
	assert(steps("S  \n## \nG  ") == 6, "round a wall")
	var maze := Maze.new("S G")
	print(maze.place("S"), maze.place("G"), maze.place("X"))
	print(maze.is_open(0, 2), maze.is_open(0, 3), maze.is_open(-1, 0))
