(* What is in scope comes into scope again: `open`, and datatypes by another name. *)

datatype suit = Clubs | Diamonds | Hearts | Spades

datatype card = Card of int * suit

(* A gardener's `Spades` stands in front of the suit from here on. *)
datatype tool = Rake | Shears | Spades

val tools = [Rake, Shears, Spades]

(* The suit by another name: its constructors come back, and the two types are one. *)
datatype colour = datatype suit

fun name Clubs = "clubs" | name Diamonds = "diamonds" | name Hearts = "hearts" | name Spades = "spades"

fun worth (Card (n, Spades)) = 2 * n
  | worth (Card (n, _)) = n

(* `quot` and `rem` of the structure `Int`, without its name; `toString` isn't shown behind the `end`. *)
local
  open Int
in
  fun digits n = if n < 10 then [n] else rem (n, 10) :: digits (quot (n, 10))
  fun show n = toString n ^ " "
end

(* A list of another name is a list. *)
datatype row = datatype list

fun backwards (row : 'a row) =
  let
    fun onto (nil, made) = made
      | onto (x :: rest, made) = onto (rest, x :: made)
  in
    onto (row, nil)
  end

val hand = [Card (9, Hearts), Card (7, Spades), Card (10, Clubs : colour)]

val () = app (fn Card (n, s) => print (show n ^ "of " ^ name s ^ "\n")) hand
val () = print ("worth " ^ Int.toString (foldl (fn (c, sum) => worth c + sum) 0 hand) ^ "\n")
val () = app (print o show) (digits 1968)
val () = app (print o show) (backwards (digits 1968))
val () = print (case tools of [Rake, _, _] => "and a rake\n" | _ => "and no rake\n")
