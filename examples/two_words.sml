val greeting = "hello"
val name = "world"
