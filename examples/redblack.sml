(* Red-black trees: ordered maps that stay balanced, by Okasaki's insertion.

   Two rules hold of every tree: no red node has a red child, and each path from the root to a leaf has the same number of black nodes.
   So the longest path is at most twice as long as the shortest. *)

datatype color = Red | Black

datatype ('key, 'item) tree =
    Leaf
  | Node of color * ('key, 'item) tree * ('key * 'item) * ('key, 'item) tree

type 'key compare = 'key * 'key -> order

fun compareInts (a : int, b) = if a < b then LESS else if a = b then EQUAL else GREATER
fun compareStrings (a : string, b) = if a < b then LESS else if a = b then EQUAL else GREATER

fun find (compare : 'key compare) tree key =
  let
    fun look Leaf = NONE
      | look (Node (_, left, (key', item), right)) =
          case compare (key, key') of
            LESS => look left
          | EQUAL => SOME item
          | GREATER => look right
  in
    look tree
  end

(* A black node over a red one over a red one, in any of four shapes, becomes a red node over two black ones. *)
fun balance (Black, Node (Red, Node (Red, a, x, b), y, c), z, d) = Node (Red, Node (Black, a, x, b), y, Node (Black, c, z, d))
  | balance (Black, Node (Red, a, x, Node (Red, b, y, c)), z, d) = Node (Red, Node (Black, a, x, b), y, Node (Black, c, z, d))
  | balance (Black, a, x, Node (Red, Node (Red, b, y, c), z, d)) = Node (Red, Node (Black, a, x, b), y, Node (Black, c, z, d))
  | balance (Black, a, x, Node (Red, b, y, Node (Red, c, z, d))) = Node (Red, Node (Black, a, x, b), y, Node (Black, c, z, d))
  | balance parts = Node parts

(* The tree with one more entry; `combine` merges the item there with the new one. *)
fun insertWith (compare : 'key compare) combine (tree, key, item) =
  let
    fun insert Leaf = Node (Red, Leaf, (key, item), Leaf)
      | insert (Node (color, left, entry as (key', item'), right)) =
          case compare (key, key') of
            LESS => balance (color, insert left, entry, right)
          | EQUAL => Node (color, left, (key, combine (item', item)), right)
          | GREATER => balance (color, left, entry, insert right)
  in
    case insert tree of
      Node (_, left, entry, right) => Node (Black, left, entry, right)
    | Leaf => Leaf
  end

(* A function over all entries in the order of their keys, from the right, since that builds lists. *)
fun foldTree _ start Leaf = start
  | foldTree f start (Node (_, left, entry, right)) = foldTree f (f (entry, foldTree f start right)) left

fun entries tree = foldTree (op ::) [] tree
fun count tree = foldTree (fn (_, n) => n + 1) 0 tree

fun depth Leaf = 0
  | depth (Node (_, left, _, right)) =
      let
        val l = depth left
        val r = depth right
      in
        1 + (if l < r then r else l)
      end

(* The number of black nodes on each path, if both rules hold. *)
exception Broken of string

fun blackHeight Leaf = 0
  | blackHeight (Node (Red, Node (Red, _, _, _), _, _)) = raise Broken "red over red"
  | blackHeight (Node (Red, _, _, Node (Red, _, _, _))) = raise Broken "red over red"
  | blackHeight (Node (color, left, _, right)) =
      let
        val height = blackHeight left
      in
        if blackHeight right <> height then raise Broken "paths differ"
        else
          case color of
            Black => height + 1
          | Red => height
      end

(* Numbers in ascending order, the worst that an unbalanced tree can be given. *)
fun replace (_, new) = new

fun ascending (from, to, tree) =
  if from > to then tree
  else ascending (from + 1, to, insertWith compareInts replace (tree, from, from * from))

val squares = ascending (1, 500, Leaf)

fun showFound key =
  print (Int.toString key ^ " -> " ^
    (case find compareInts squares key of
       NONE => "nothing"
     | SOME square => Int.toString square) ^ "\n")

val () = print (Int.toString (count squares) ^ " entries, depth " ^ Int.toString (depth squares) ^
  ", black height " ^ Int.toString (blackHeight squares) ^ "\n")
val () = app showFound [1, 22, 499, 501]

(* How often each word occurs. *)
val words =
  ["the", "quick", "fox", "and", "the", "slow", "dog", "and", "the", "cat", "saw", "the", "fox"]

val counted = foldl (fn (word, tree) => insertWith compareStrings (op +) (tree, word, 1)) Leaf words

val () = app (fn (word, n) => print (word ^ ": " ^ Int.toString n ^ "\n")) (entries counted)

(* A tree that breaks a rule is noticed. *)
val wrong = Node (Black, Node (Black, Leaf, (1, ()), Leaf), (2, ()), Leaf)
val () = print (Int.toString (blackHeight wrong) ^ "\n") handle Broken why => print ("broken: " ^ why ^ "\n")
