class_name Item

enum Kind { TOOL, FOOD, SPELL }

var title: String
var kind: Kind
# No price is below nothing.
var price: int:
	set(value):
		price = maxi(value, 0)

func _init(name: String, what: Kind, cost: int):
	title = name
	kind = what
	price = cost

func line(count: int) -> String:
	return "%-8s %2d x %3d = %4d" % [title, count, price, count * price]
