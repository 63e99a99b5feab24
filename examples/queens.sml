(* The n queens: place n queens on an n by n board so that none attacks another.

   A placement is a list of columns, one for each row that is filled so far; the last row filled stands first.
   No two queens can then share a row, and only columns and diagonals are left to look at. *)

type placement = int list

(* Whether a queen in this column of the next row is attacked by none of those placed. *)
fun safe (column, placed : placement) =
  let
    fun free (_, []) = true
      | free (distance, other :: rest) =
          other <> column andalso abs (other - column) <> distance andalso free (distance + 1, rest)
  in
    free (1, placed)
  end

(* All solutions, each handed to `visit`, from the leftmost column on. *)
fun solve (n, visit : placement -> unit) =
  let
    fun fill (row, placed) =
      if row > n then visit placed else attempt (row, 1, placed)

    and attempt (row, column, placed) =
      if column > n then ()
      else
        (if safe (column, placed) then fill (row + 1, column :: placed) else ();
         attempt (row, column + 1, placed))
  in
    fill (1, [])
  end

fun count n =
  let
    val found = ref 0
  in
    solve (n, fn _ => found := !found + 1);
    !found
  end

(* The first solution leaves the search as an exception. *)
fun first n =
  let
    exception Found of placement
  in
    (solve (n, fn placed => raise Found (rev placed)); NONE)
    handle Found placed => SOME placed
  end

fun line (n, queen) =
  let
    fun cells column =
      if column > n then ["\n"]
      else (if column = queen then " Q" else " .") :: cells (column + 1)
  in
    concat (cells 1)
  end

fun board (n, placed) = concat (map (fn queen => line (n, queen)) placed)

fun report n = print (Int.toString n ^ " queens: " ^ Int.toString (count n) ^ "\n")

fun show n =
  case first n of
    NONE => print ("no way to place " ^ Int.toString n ^ " queens\n")
  | SOME placed => print ("the first of " ^ Int.toString n ^ " queens:\n" ^ board (n, placed))

val () = app report [1, 2, 3, 4, 5, 6, 7]
val () = app show [3, 6, 8]
