class_name Stock

signal sold_out(title: String)

var _items: Dictionary[String, Item] = {}
var _counts: Dictionary[String, int] = {}

func add(item: Item, count := 1) -> void:
	_items[item.title] = item
	_counts[item.title] = count_of(item.title) + count

func count_of(title: String) -> int:
	if _counts.has(title):
		return _counts[title]
	return 0

func item(title: String) -> Item:
	if _items.has(title):
		return _items[title]
	return null

# Takes some pieces out, and tells whether there were as many.
func take(title: String, count := 1) -> bool:
	if count_of(title) < count:
		return false
	_counts[title] -= count
	if _counts[title] == 0:
		sold_out.emit(title)
	return true

func give_back(title: String, count: int) -> void:
	_counts[title] = count_of(title) + count
