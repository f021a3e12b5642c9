class_name Dwarf extends Guest

func _init(name: String):
	super(name, 9)

func limit() -> int:
	return super.limit() * 2

func favourite() -> String:
	return "stout"
