val largest = 2147483647
val () = print "the largest int is 2147483647\n"
val next = largest + 1
val () = print "this is not reached\n"
