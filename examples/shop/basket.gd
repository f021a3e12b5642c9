class_name Basket

# From this sum on, a tenth is taken off.
const DISCOUNT_FROM := 100

var stock: Stock
var _counts: Dictionary[String, int] = {}

func _init(from: Stock):
	stock = from

func put(title: String, count := 1) -> bool:
	if not stock.take(title, count):
		return false
	if not _counts.has(title):
		_counts[title] = 0
	_counts[title] += count
	return true

func remove(title: String) -> void:
	if not _counts.has(title):
		return
	stock.give_back(title, _counts[title])
	_counts.erase(title)

func sum() -> int:
	var all := 0
	for title: String in _counts:
		all += stock.item(title).price * _counts[title]
	return all

func to_pay() -> int:
	var all := sum()
	return all - all / 10 if all >= DISCOUNT_FROM else all

func lines() -> Array[String]:
	var all: Array[String] = []
	for title: String in _counts:
		all.append(stock.item(title).line(_counts[title]))
	return all
