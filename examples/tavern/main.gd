# An evening at the tavern.

func test():
	var tavern := Tavern.new()
	tavern.enter(Guest.new("Ann", 3))
	tavern.enter(Dwarf.new("Borin"))
	for hour in range(3):
		tavern.round_of_drinks()
		print("hour ", hour + 1, ": ", ", ".join(names(tavern)))
	tavern.serve(tavern.guests[0], "wine")
	tavern.serve(tavern.guests[0], "water")
	for line in tavern.log:
		print(line)
	print("in the till: ", tavern.till)

func names(tavern: Tavern) -> Array[String]:
	var all: Array[String] = []
	for guest in tavern.guests:
		all.append(guest.told())
	return all
