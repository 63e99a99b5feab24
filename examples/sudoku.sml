(* Sudoku: fill a 9 by 9 grid so that each row, each column and each 3 by 3 box holds 1 to 9.

   The search keeps the cells that are open, each with the digits that are still possible there. It always goes on with the cell that has
   the fewest: with one there is no choice, and with none the search turns back. *)

type cell = {row : int, column : int, box : int}
type choice = cell * int list
type filled = cell * int

exception Malformed

fun cellAt place =
  let
    val row = place div 9
    val column = place mod 9
  in
    {row = row, column = column, box = row div 3 * 3 + column div 3}
  end

(* Whether two cells may not hold the same digit. *)
fun related ({row = r, column = c, box = b} : cell, {row = r', column = c', box = b'} : cell) =
  r = r' orelse c = c' orelse b = b'

fun without (digit : int, digits) =
  let
    fun keep [] = []
      | keep (d :: ds) = if d = digit then ds else d :: keep ds
  in
    keep digits
  end

(* The open cells after one has got its digit. *)
fun ruleOut ((cell, digit) : filled, choices : choice list) =
  map (fn (other, digits) => (other, if related (cell, other) then without (digit, digits) else digits)) choices

(* The cell with the fewest digits, and the others. *)
fun fewest (first : choice, rest : choice list) =
  let
    fun pick (best, _, others, []) = (best, others)
      | pick (best, n, others, (choice as (_, digits)) :: choices) =
          let
            val m = length digits
          in
            if m < n then pick (choice, m, best :: others, choices) else pick (best, n, choice :: others, choices)
          end

    val (_, digits) = first
  in
    pick (first, length digits, [], rest)
  end

(* How many digits were tried. *)
val tried = ref 0

(* The first solution that the search comes to. *)
fun search (filled : filled list, []) = SOME filled
  | search (filled, first :: rest) =
      let
        val ((cell, digits), others) = fewest (first, rest)

        fun attempt [] = NONE
          | attempt (digit :: digits) =
              (tried := !tried + 1;
               case search ((cell, digit) :: filled, ruleOut ((cell, digit), others)) of
                 SOME solution => SOME solution
               | NONE => attempt digits)
      in
        attempt digits
      end

(* A grid is 81 characters, with a dot for an open cell. *)
fun read text =
  let
    fun cells (_, [], given, free) = (given, free)
      | cells (place, c :: cs, given, free) =
          if c = #"." then cells (place + 1, cs, given, cellAt place :: free)
          else if c >= #"1" andalso c <= #"9" then
            cells (place + 1, cs, (cellAt place, ord c - ord #"0") :: given, free)
          else raise Malformed
  in
    if size text <> 81 then raise Malformed else cells (0, explode text, [], [])
  end

fun solve text =
  let
    val (given, free) = read text
    val every = map (fn cell => (cell, [1, 2, 3, 4, 5, 6, 7, 8, 9])) free
  in
    search (given, foldl ruleOut every given)
  end

(* The digit of a cell, as it is printed. *)
fun digitAt (filled : filled list, place) =
  let
    val cell = cellAt place

    fun find [] = "."
      | find ((other, digit) :: rest) = if other = cell then Int.toString digit else find rest
  in
    find filled
  end

fun show filled =
  let
    fun between place = if place mod 9 = 8 then "\n" else if place mod 3 = 2 then "  " else " "

    fun line place =
      (print (digitAt (filled, place) ^ between place);
       if place = 26 orelse place = 53 then print "\n" else ())

    val place = ref 0
  in
    while !place < 81 do (line (!place); place := !place + 1)
  end

fun run (title, text) =
  (tried := 0;
   print (title ^ "\n");
   case solve text of
     NONE => print "  has no solution\n"
   | SOME filled => (show filled; print ("  after " ^ Int.toString (!tried) ^ " digits\n")))
  handle Malformed => print "  is no grid\n"

val easy =
  "53..7....6..195....98....6.8...6...34..8.3..17...2...6.6....28....419..5....8..79"

val harder =
  "2...8.3...6..7..84.3.5..2.9...1.54.8.........4.27.6...3.1..7.4.72..4..6...4.1...3"

val wrong =
  "55..7....6..195....98....6.8...6...34..8.3..17...2...6.6....28....419..5....8..79"

val () = run ("An easy grid", easy)
val () = run ("A harder grid", harder)
val () = run ("A grid with one digit changed", wrong)
val () = run ("Half a grid", substring (easy, 0, 40))
