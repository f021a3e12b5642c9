# Draws the shortest way through a maze.

const TEXT = """###########
#S  #     #
# # # ### #
# #   #   #
# ##### ###
#       #G#
##### ### #
#         #
###########"""

func test():
	var maze := Maze.new(TEXT)
	var way := Solver.new(maze).way()
	for line in maze.drawn(way):
		print(line)
	print(way.size() - 1, " steps")
