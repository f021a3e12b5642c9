class_name Tavern

const PRICES = { "ale": 2, "stout": 3, "water": 0 }

var guests: Array[Guest] = []
var till := 0
var log: Array[String] = []

func enter(guest: Guest) -> void:
	guests.append(guest)
	guest.left.connect(_on_left, CONNECT_ONE_SHOT)

func _on_left(guest: Guest) -> void:
	guests.erase(guest)
	log.append("%s leaves" % guest.title)

func serve(guest: Guest, drink := guest.favourite()) -> void:
	match PRICES.get(drink):
		null:
			log.append("no %s here" % drink)
		0:
			log.append("%s gets %s for nothing" % [guest.title, drink])
		var price when guest.pay(price):
			till += price
			log.append("%s drinks %s" % [guest.title, drink])
		_:
			log.append("%s cannot pay" % guest.title)
			guest.leave()

# Everybody gets a drink; who leaves meanwhile is passed over.
func round_of_drinks() -> void:
	for guest in guests.duplicate():
		serve(guest)
