# A customer walks through the shop.

var notes: Array[String] = []

func _on_sold_out(title: String) -> void:
	notes.append("no %s left" % title)

func filled() -> Stock:
	var stock := Stock.new()
	stock.add(Item.new("rope", Item.Kind.TOOL, 12), 3)
	stock.add(Item.new("bread", Item.Kind.FOOD, 2), 20)
	stock.add(Item.new("sleep", Item.Kind.SPELL, 75))
	stock.sold_out.connect(_on_sold_out)
	return stock

func test():
	var basket := Basket.new(filled())
	print(basket.put("rope", 2), " ", basket.put("sleep"), " ", basket.put("sleep"), " ", basket.put("bread", 5))
	for line in basket.lines():
		print(line)
	print("to pay ", basket.to_pay(), " of ", basket.sum())
	basket.remove("sleep")
	print("to pay ", basket.to_pay(), " of ", basket.sum())
	print(notes)
