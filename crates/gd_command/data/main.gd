func test():
	print(42)
