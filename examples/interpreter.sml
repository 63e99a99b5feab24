(* An interpreter of a small language: numbers, functions with environments, assignments, loops, and jumps.

   What a program does out of order is an exception of the interpreter: `break` leaves a loop, `return` a function, and an error that
   the program throws goes up to the nearest `try`. *)

datatype expression =
    Number of int
  | Variable of string
  | Binary of operator * expression * expression
  | Function of string list * statement
  | Call of expression * expression list

and operator = Add | Subtract | Multiply | Divide | Remainder | Less | Equal

and statement =
    Block of statement list
  | Declare of string * expression
  | Assign of string * expression
  | If of expression * statement * statement
  | While of expression * statement
  | Break
  | Return of expression
  | Print of string * expression
  | Throw of expression
  | Try of statement * string * statement

(* A closure keeps the environment in which its function was written. Each variable is a reference, so that closures share it. *)
datatype value =
    Integer of int
  | Closure of closure
withtype environment = (string * value ref) list
and closure = string list * statement * (string * value ref) list

exception Broken                  (* a loop is left *)
exception Returned of value       (* a function is left *)
exception Thrown of value         (* the program's own exceptions *)
exception Wrong of string         (* what no program may do *)

fun place (name, [] : environment) = raise Wrong ("no variable " ^ name)
  | place (name, (name', cell) :: rest) = if name = name' then cell else place (name, rest)

fun integer (Integer n) = n
  | integer (Closure _) = raise Wrong "a function is no number"

fun truth true = 1
  | truth false = 0

fun operate (Add, a, b) = a + b
  | operate (Subtract, a, b) = a - b
  | operate (Multiply, a, b) = a * b
  | operate (Divide, a, b) = Int.quot (a, b)
  | operate (Remainder, a, b) = Int.rem (a, b)
  | operate (Less, a, b) = truth (a < b)
  | operate (Equal, a, b) = truth (a = b)

fun show (Integer n) = Int.toString n
  | show (Closure (parameters, _, _)) = "a function of " ^ Int.toString (length parameters)

(* New variables for the parameters, over the environment. *)
fun bindAll ([], [], environment : environment) = environment
  | bindAll (name :: names, value :: values, environment) = bindAll (names, values, (name, ref value) :: environment)
  | bindAll (_, _, _) = raise Wrong "another number of arguments"

fun evaluate (_, Number n) = Integer n
  | evaluate (environment, Variable name) = !(place (name, environment))
  | evaluate (environment, Binary (operator, left, right)) =
      let
        val a = integer (evaluate (environment, left))
        val b = integer (evaluate (environment, right))
      in
        Integer (operate (operator, a, b) handle Div => raise Thrown (Integer 0))
      end
  | evaluate (environment, Function (parameters, body)) = Closure (parameters, body, environment)
  | evaluate (environment, Call (function, arguments)) =
      (case evaluate (environment, function) of
         Closure (parameters, body, kept) =>
           let
             val values = map (fn argument => evaluate (environment, argument)) arguments
           in
             (execute (bindAll (parameters, values, kept), body); Integer 0)
             handle Returned value => value
           end
       | Integer _ => raise Wrong "a number is no function")

(* A statement, which may add a variable to what is after it in its block. *)
and execute (environment, statement) : environment =
  case statement of
    Block statements => (foldl (fn (s, e) => execute (e, s)) environment statements; environment)
  | Declare (name, expression) =>
      let
        val cell = ref (Integer 0)
        val extended = (name, cell) :: environment
      in
        cell := evaluate (extended, expression);
        extended
      end
  | Assign (name, expression) => (place (name, environment) := evaluate (environment, expression); environment)
  | If (test, yes, no) =>
      (execute (environment, if holds (environment, test) then yes else no); environment)
  | While (test, body) =>
      ((while holds (environment, test) do ignore (execute (environment, body))) handle Broken => ();
       environment)
  | Break => raise Broken
  | Return expression => raise Returned (evaluate (environment, expression))
  | Print (label, expression) => (print (label ^ show (evaluate (environment, expression)) ^ "\n"); environment)
  | Throw expression => raise Thrown (evaluate (environment, expression))
  | Try (body, name, otherwise) =>
      (execute (environment, body)
       handle Thrown value => execute ((name, ref value) :: environment, otherwise);
       environment)

and holds (environment, test) = integer (evaluate (environment, test)) <> 0

fun run (title, program) =
  (print (title ^ "\n"); ignore (execute ([], Block program)))
  handle Wrong why => print ("  wrong: " ^ why ^ "\n")
       | Thrown value => print ("  thrown: " ^ show value ^ "\n")
       | Broken => print "  break outside a loop\n"
       | Returned _ => print "  return outside a function\n"

(* Short names, so that programs can be read *)

infix 6 plus minus
infix 7 times over rest
infix 4 less equal

fun a plus b = Binary (Add, a, b)
fun a minus b = Binary (Subtract, a, b)
fun a times b = Binary (Multiply, a, b)
fun a over b = Binary (Divide, a, b)
fun a rest b = Binary (Remainder, a, b)
fun a less b = Binary (Less, a, b)
fun a equal b = Binary (Equal, a, b)

val n = Number
val v = Variable
val skip = Block []

val fibonacci =
  [Declare ("fib", Function (["k"],
     Block
       [If (v"k" less n 2, Return (v"k"), skip),
        Return (Call (v"fib", [v"k" minus n 1]) plus Call (v"fib", [v"k" minus n 2]))])),
   Print ("  fib 12 = ", Call (v"fib", [n 12]))]

val divisor =
  [Declare ("gcd", Function (["a", "b"],
     Block
       [While (n 1, Block
          [If (v"b" equal n 0, Break, skip),
           Declare ("r", v"a" rest v"b"),
           Assign ("a", v"b"),
           Assign ("b", v"r")]),
        Return (v"a")])),
   Print ("  gcd 1071 462 = ", Call (v"gcd", [n 1071, n 462]))]

val counters =
  [Declare ("counter", Function (["step"],
     Block
       [Declare ("count", n 0),
        Return (Function ([], Block
          [Assign ("count", v"count" plus v"step"),
           Return (v"count")]))])),
   Declare ("ones", Call (v"counter", [n 1])),
   Declare ("tens", Call (v"counter", [n 10])),
   Print ("  ones: ", Call (v"ones", [])),
   Print ("  ones: ", Call (v"ones", [])),
   Print ("  tens: ", Call (v"tens", [])),
   Print ("  ones: ", Call (v"ones", [])),
   Print ("  counter is ", v"counter")]

val errors =
  [Declare ("check", Function (["k"],
     Block
       [If (n 100 less v"k", Throw (v"k" minus n 100), skip),
        Return (n 100 over v"k")])),
   Try (Print ("  100 / 7 = ", Call (v"check", [n 7])), "e", Print ("  thrown: ", v"e")),
   Try (Print ("  not reached: ", Call (v"check", [n 142])), "e", Print ("  too large by ", v"e")),
   Try (Print ("  not reached: ", Call (v"check", [n 0])), "e", Print ("  division by ", v"e")),
   Throw (n 3)]

val () = run ("recursion", fibonacci)
val () = run ("a loop that is left", divisor)
val () = run ("closures with state", counters)
val () = run ("exceptions", errors)
val () = run ("nothing of this name", [Print ("  x = ", v"x" times n 2)])
val () = run ("another number of arguments", [Declare ("f", Function (["x"], Return (v"x"))), Print ("  f = ", Call (v"f", []))])
val () = run ("a stray break", [Break])
