class_name Guest

signal left(guest: Guest)

enum Mood { GRIM, CALM, MERRY }

var title: String
var coins: int
var drunk := 0
var mood: Mood:
	get:
		return Mood.GRIM if coins == 0 else Mood.MERRY if drunk >= limit() else Mood.CALM

func _init(name: String, purse: int):
	title = name
	coins = purse

# How many drinks make this guest merry.
func limit() -> int:
	return 2

func favourite() -> String:
	return "ale"

func pay(price: int) -> bool:
	if coins < price:
		return false
	coins -= price
	drunk += 1
	return true

func leave() -> void:
	left.emit(self)

func told() -> String:
	return "%s (%s, %d)" % [title, Mood.find_key(mood), coins]
