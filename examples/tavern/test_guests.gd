# Tests of guests: their moods, and that each leaves once.

func moods(guest: Guest, drinks: int) -> Array:
	var seen := []
	for _drink in drinks:
		guest.pay(1)
		seen.append(Guest.Mood.keys()[guest.mood])
	return seen

func test():
	print(moods(Guest.new("Cid", 3), 3))
	print(moods(Dwarf.new("Dori"), 4))
	assert(Dwarf.new("Ori") is Guest)
	var tavern := Tavern.new()
	var guest := Guest.new("Eve", 0)
	tavern.enter(guest)
	guest.leave()
	guest.leave()
	print(tavern.log, tavern.guests)
