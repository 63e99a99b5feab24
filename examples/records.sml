(* Records by their fields: selectors, patterns with `...`, sorting by a key. *)

type person = {name : string, born : int, town : string}

val people : person list =
  [{name = "Milner", born = 1934, town = "Plymouth"},
   {name = "Tofte", born = 1959, town = "Copenhagen"},
   {name = "Harper", born = 1957, town = "Pittsburgh"},
   {name = "MacQueen", born = 1946, town = "Chicago"},
   {name = "Burstall", born = 1934, town = "Liverpool"},
   {name = "Landin", born = 1930, town = "Sheffield"}]

(* A field of each. The annotation says which records they are. *)
fun names (ps : person list) = map #name ps

fun older ({born, ...} : person, {born = other, ...} : person) = born < other

fun split nil = (nil, nil)
  | split [x] = ([x], nil)
  | split (x :: y :: rest) =
      let
        val (xs, ys) = split rest
      in
        (x :: xs, y :: ys)
      end

fun merge less (nil, ys) = ys
  | merge less (xs, nil) = xs
  | merge less (x :: xs, y :: ys) =
      if less (y, x) then y :: merge less (x :: xs, ys) else x :: merge less (xs, y :: ys)

fun sort less nil = nil
  | sort less [x] = [x]
  | sort less xs =
      let
        val (ys, zs) = split xs
      in
        merge less (sort less ys, sort less zs)
      end

fun line ({name, town = place, born = year, ...} : person) =
  name ^ ", " ^ place ^ ", " ^ Int.toString year ^ "\n"

val _ = print (concat (map (fn name => name ^ " ") (names people)) ^ "\n")
val _ = print (concat (map line (sort older people)))

(* Pairs are records too: `#1` takes their first field. Which records they are is known from what follows. *)
val pairs = [(3, "three"), (1, "one"), (2, "two")]
val _ = print (concat (map (fn p => #2 p ^ " ") (sort (fn (a, b) => #1 a < #1 b) pairs)) ^ "\n")

val {town, born = year, ...} = hd people
val _ = print (town ^ " " ^ Int.toString year ^ "\n")

val boxes = [{size = 3, label = "a"}, {size = 4, label = "b"}]
val total = foldl (fn ({size, ...}, sum) => size + sum) 0 boxes
val _ = print (Int.toString total ^ "\n")

(* A record in a record, and a name for the whole. *)
type plant = {at : int * int, what : {kind : string, weight : int}}

fun heavy (all as {what = {weight, ...}, ...} : plant) = if weight > 5 then [all] else nil

val plants : plant list =
  [{at = (1, 2), what = {kind = "oak", weight = 7}},
   {at = (3, 4), what = {kind = "fern", weight = 1}},
   {at = (5, 6), what = {kind = "elm", weight = 9}}]

val _ =
  app (fn plant => print (#kind (#what plant) ^ " at " ^ Int.toString (#1 (#at plant)) ^ "\n"))
    (foldr (fn (plant, rest) => heavy plant @ rest) nil plants)
