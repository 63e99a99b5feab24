val say = print
val greeting = "hello, " ^ "again"
val () = say (greeting ^ "\n")
