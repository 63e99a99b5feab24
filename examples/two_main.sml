val () = print (greeting ^ ", " ^ name ^ "\n")
