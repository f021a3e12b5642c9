# Tests of a basket. Each test has a shop of its own.

func stock() -> Stock:
	var made := Stock.new()
	made.add(Item.new("rope", Item.Kind.TOOL, 40), 3)
	made.add(Item.new("bread", Item.Kind.FOOD, 2), 2)
	return made

func an_empty_basket_costs_nothing() -> void:
	assert(Basket.new(stock()).to_pay() == 0)

func nothing_is_put_in_that_is_not_there() -> void:
	var basket := Basket.new(stock())
	assert(not basket.put("rope", 4))
	assert(not basket.put("shield"))
	assert(basket.lines() == [], "it is empty still")

func a_discount_begins_at_a_sum() -> void:
	var basket := Basket.new(stock())
	basket.put("rope", 2)
	assert(basket.to_pay() == 80)
	basket.put("rope")
	assert(basket.to_pay() == 108)

func what_is_removed_goes_back() -> void:
	var shop := stock()
	var basket := Basket.new(shop)
	basket.put("bread", 2)
	assert(shop.count_of("bread") == 0)
	basket.remove("bread")
	basket.remove("bread")
	assert(shop.count_of("bread") == 2)

func test():
	for one: Callable in [an_empty_basket_costs_nothing, nothing_is_put_in_that_is_not_there, a_discount_begins_at_a_sum, what_is_removed_goes_back]:
		one.call()
		print("passed ", one)
