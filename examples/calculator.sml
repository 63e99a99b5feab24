(* A calculator: text to tokens, tokens to a tree, the tree to a number.

     sum     ::= product, then any number of `+ product` and `- product`
     product ::= factor, then any number of `* factor` and `/ factor`
     factor  ::= number | name | - factor | ( sum )

   A line `name = sum` keeps the sum's value for later lines. *)

exception Syntax of string
exception Unknown of string

(* Tokens *)

datatype token =
    Number of int
  | Name of string
  | Symbol of char

fun isDigit c = c >= #"0" andalso c <= #"9"
fun isLetter c = c >= #"a" andalso c <= #"z"
fun isSpace c = c = #" "

(* The longest front of the characters that all satisfy a test, and the rest. *)
fun span test characters =
  let
    fun take (front, rest as c :: cs) = if test c then take (c :: front, cs) else (rev front, rest)
      | take (front, []) = (rev front, [])
  in
    take ([], characters)
  end

fun decimal digits = foldl (fn (d, n) => 10 * n + (ord d - ord #"0")) 0 digits

fun tokens [] = []
  | tokens (all as c :: rest) =
      if isSpace c then tokens rest
      else if isDigit c then
        let
          val (digits, rest) = span isDigit all
        in
          Number (decimal digits) :: tokens rest
        end
      else if isLetter c then
        let
          val (letters, rest) = span isLetter all
        in
          Name (implode letters) :: tokens rest
        end
      else Symbol c :: tokens rest

fun describe (Number n) = Int.toString n
  | describe (Name name) = name
  | describe (Symbol c) = str c

(* Trees: each function of the parser takes tokens, and gives a tree and the tokens after it. *)

datatype expression =
    Constant of int
  | Variable of string
  | Negated of expression
  | Operation of operator * expression * expression

and operator = Plus | Minus | Times | Over

fun sum ts =
  let
    fun more (left, Symbol #"+" :: ts) = next (Plus, left, ts)
      | more (left, Symbol #"-" :: ts) = next (Minus, left, ts)
      | more result = result

    and next (operator, left, ts) =
      let
        val (right, ts) = product ts
      in
        more (Operation (operator, left, right), ts)
      end
  in
    more (product ts)
  end

and product ts =
  let
    fun more (left, Symbol #"*" :: ts) = next (Times, left, ts)
      | more (left, Symbol #"/" :: ts) = next (Over, left, ts)
      | more result = result

    and next (operator, left, ts) =
      let
        val (right, ts) = factor ts
      in
        more (Operation (operator, left, right), ts)
      end
  in
    more (factor ts)
  end

and factor (Number n :: ts) = (Constant n, ts)
  | factor (Name name :: ts) = (Variable name, ts)
  | factor (Symbol #"-" :: ts) =
      let
        val (inner, ts) = factor ts
      in
        (Negated inner, ts)
      end
  | factor (Symbol #"(" :: ts) =
      (case sum ts of
         (inner, Symbol #")" :: ts) => (inner, ts)
       | _ => raise Syntax "a bracket is never closed")
  | factor (t :: _) = raise Syntax ("no operand begins with " ^ describe t)
  | factor [] = raise Syntax "an operand is missing"

fun parse ts =
  case sum ts of
    (tree, []) => tree
  | (_, t :: _) => raise Syntax ("not expected: " ^ describe t)

(* A tree as text, with brackets only where precedence asks for them. *)

fun precedence Plus = 1
  | precedence Minus = 1
  | precedence Times = 2
  | precedence Over = 2

fun symbol Plus = " + "
  | symbol Minus = " - "
  | symbol Times = " * "
  | symbol Over = " / "

fun render (_, Constant n) = Int.toString n
  | render (_, Variable name) = name
  | render (_, Negated inner) = "-" ^ render (3, inner)
  | render (level, Operation (operator, left, right)) =
      let
        val own = precedence operator
        val text = render (own, left) ^ symbol operator ^ render (own + 1, right)
      in
        if own < level then "(" ^ text ^ ")" else text
      end

(* Values. The memory is a list of names and values, the latest first. *)

type memory = (string * int) list

fun lookup ([] : memory, name) = raise Unknown name
  | lookup ((name', value) :: rest, name) = if name = name' then value else lookup (rest, name)

fun evaluate (memory, tree) =
  let
    fun value (Constant n) = n
      | value (Variable name) = lookup (memory, name)
      | value (Negated inner) = ~(value inner)
      | value (Operation (operator, left, right)) = apply (operator, value left, value right)

    and apply (Plus, a, b) = a + b
      | apply (Minus, a, b) = a - b
      | apply (Times, a, b) = a * b
      | apply (Over, a, b) = Int.quot (a, b)
  in
    value tree
  end

(* Lines *)

fun show n = if n < 0 then "-" ^ Int.toString (~n) else Int.toString n

fun answer (memory, ts) =
  let
    val tree = parse ts
    val value = evaluate (memory, tree)
  in
    print (render (0, tree) ^ " = " ^ show value ^ "\n");
    value
  end

(* The memory after a line; where the line is refused, the one before it. *)
fun line (text, memory) =
  (case tokens (explode text) of
     Name name :: Symbol #"=" :: ts => (name, answer (memory, ts)) :: memory
   | ts => ("it", answer (memory, ts)) :: memory)
  handle Syntax why => (print (text ^ ": " ^ why ^ "\n"); memory)
       | Unknown name => (print (text ^ ": nothing is called " ^ name ^ "\n"); memory)
       | Div => (print (text ^ ": division by zero\n"); memory)

val lines =
  ["1 + 2 * 3",
   "(1 + 2) * 3",
   "10 - 4 - 3",
   "10 - (4 - 3)",
   "-7 / 2",
   "width = 12",
   "height = width / 2 + 1",
   "width * height - it",
   "2 * (3 + 4",
   "2 * * 3",
   "2 3",
   "",
   "depth + 1",
   "1 / (width - 12)",
   "-(width + height) * -1"]

val memory = foldl line [] lines
val () = print (Int.toString (length memory) ^ " lines had an answer\n")
