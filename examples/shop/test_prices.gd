# Tests of items: their prices and their lines.

func test():
	var lamp := Item.new("lamp", Item.Kind.TOOL, -5)
	assert(lamp.price == 0, "no price is below nothing")
	lamp.price = 7
	lamp.price -= 9
	assert(lamp.price == 0, "also where it is lowered")
	lamp.price = 30
	print(lamp.line(3))
	for kind in Item.Kind:
		print(kind, " ", Item.Kind[kind])
