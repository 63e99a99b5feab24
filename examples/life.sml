(* Conway's game of life, on a board that ends at its edges.

   A cell with three living neighbours lives in the next generation, and one with two stays as it is; every other one is dead. *)

type row = bool list
type board = row list

(* Reading and showing *)

fun rowOf text = map (fn c => c = #"#") (explode text)

fun show board =
  app (fn row => print (implode (map (fn alive => if alive then #"#" else #".") row) ^ "\n")) board

fun population (board : board) =
  foldl (fn (row, n) => foldl (fn (alive, m) => if alive then m + 1 else m) n row) 0 board

(* Neighbours are counted by rows: each cell's row is summed with its two neighbours, and then three such rows are added up. *)

fun number alive = if alive then 1 else 0

(* For each cell the living among itself, the one before and the one after. *)
fun triples row =
  let
    fun go (before', here :: (rest as after' :: _)) = number before' + number here + number after' :: go (here, rest)
      | go (before', [here]) = [number before' + number here]
      | go (_, []) = []
  in
    go (false, row)
  end

fun add (x :: xs, y :: ys) = x + y :: add (xs, ys)
  | add (_, _) = []

(* Whether a cell lives, if so many of the nine cells round it and in its own place live now. *)
fun lives (alive, nine) = nine = 3 orelse alive andalso nine = 4

fun nextRow (alive :: row, nine :: nines) = lives (alive, nine) :: nextRow (row, nines)
  | nextRow (_, _) = []

fun next (board : board) =
  let
    val none = map (fn _ => 0) (hd board)

    (* the sums of the row above, the rows from here on, and their sums *)
    fun go (above, row :: rows, sums :: rest) =
          let
            val below = if null rest then none else hd rest
          in
            nextRow (row, add (add (above, sums), below)) :: go (sums, rows, rest)
          end
      | go (_, _, _) = []
  in
    if null board then [] else go (none, board, map triples board)
  end

(* The first generation that was there before, and how many generations before; none past the limit is looked at. *)
fun cycle (board, limit) =
  let
    fun seen (_, _, []) = NONE
      | seen (board, n, earlier :: rest) = if board = earlier then SOME n else seen (board, n + 1, rest)

    fun go (board, count, past) =
      if count > limit then NONE
      else
        case seen (board, 1, past) of
          SOME period => SOME (count, period)
        | NONE => go (next board, count + 1, board :: past)
  in
    go (board, 0, [])
  end

fun after (0, board) = board
  | after (n, board) = after (n - 1, next board)

fun report (title, board) =
  (print (title ^ ": " ^ Int.toString (population board) ^ " cells, ");
   case cycle (board, 40) of
     NONE => print "still changing after 40 generations\n"
   | SOME (count, period) =>
       print ("generation " ^ Int.toString count ^ " is generation " ^ Int.toString (count - period) ^ " again\n"))

(* Boards *)

val block = map rowOf ["....", ".##.", ".##.", "...."]
val blinker = map rowOf [".....", "..#..", "..#..", "..#..", "....."]
val toad = map rowOf ["......", "......", "..###.", ".###..", "......", "......"]

val glider =
  map rowOf
    [".#........",
     "..#.......",
     "###.......",
     "..........",
     "..........",
     "..........",
     "..........",
     ".........."]

val () = app report [("block", block), ("blinker", blinker), ("toad", toad), ("glider", glider)]

val () = app (fn n => (print ("generation " ^ Int.toString n ^ "\n"); show (after (n, glider)))) [0, 4, 8, 28]
