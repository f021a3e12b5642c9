class_name Maze

# A maze of letters: # is a wall, S the start, G the goal.

const STEPS = { "north": [-1, 0], "east": [0, 1], "south": [1, 0], "west": [0, -1] }

var rows: Array[String]
var height: int
var width: int

func _init(text: String):
	rows = text.split("\n")
	height = rows.size()
	width = rows[0].length()

# The place of a letter, as row and column, or an empty list.
func place(letter: String) -> Array[int]:
	for row in height:
		var column := rows[row].find(letter)
		if column >= 0:
			return [row, column]
	return []

func is_open(row: int, column: int) -> bool:
	if row < 0 or row >= height or column < 0 or column >= width:
		return false
	return rows[row][column] != "#"

func number(row: int, column: int) -> int:
	return row * width + column

func drawn(way: Array[int]) -> Array[String]:
	var lines: Array[String] = []
	for row in height:
		var line := ""
		for column in width:
			var letter := rows[row][column]
			line += "." if letter == " " and number(row, column) in way else letter
		lines.append(line)
	return lines
