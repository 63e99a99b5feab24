(* Building and searching strings.

   `s ^ t` copies both strings, so what is built from many pieces is gathered in a list and joined once, by `concat` or `implode`. *)

(* Building *)

fun repeat (n, s) =
  let
    fun pieces 0 = []
      | pieces k = s :: pieces (k - 1)
  in
    concat (pieces n)
  end

fun join _ [] = ""
  | join between (first :: rest) = concat (first :: foldr (fn (s, pieces) => between :: s :: pieces) [] rest)

fun padRight (n, s) = s ^ repeat (n - size s, " ")
fun padLeft (n, s) = repeat (n - size s, " ") ^ s

(* A text under construction: its pieces, the last one first. *)
type text = string list ref

fun newText () : text = ref []
fun add (text : text, s) = text := s :: !text
fun contents (text : text) = concat (rev (!text))

(* Characters *)

fun isLower c = c >= #"a" andalso c <= #"z"
fun isUpper c = c >= #"A" andalso c <= #"Z"
fun upper c = if isLower c then chr (ord c - 32) else c
fun lower c = if isUpper c then chr (ord c + 32) else c

fun mapString f s = implode (map f (explode s))

fun capital s = if s = "" then "" else str (upper (hd (explode s))) ^ substring (s, 1, size s - 1)

(* Each letter so many places on in the alphabet; a negative number goes back. *)
fun shift places =
  let
    fun turn (first, c) = chr (ord first + (ord c - ord first + places) mod 26)
  in
    mapString (fn c => if isLower c then turn (#"a", c) else if isUpper c then turn (#"A", c) else c)
  end

(* The parts between characters that satisfy a test, without empty ones. *)
fun split test s =
  let
    fun finish ([], words) = words
      | finish (letters, words) = implode (rev letters) :: words

    fun go ([], letters, words) = rev (finish (letters, words))
      | go (c :: cs, letters, words) =
          if test c then go (cs, [], finish (letters, words)) else go (cs, c :: letters, words)
  in
    go (explode s, [], [])
  end

fun isBlank c = c = #" " orelse c = #"\n"

val words = split isBlank

(* Searching *)

(* Whether the pattern stands at a place. *)
fun standsAt (pattern, s, place) =
  place + size pattern <= size s andalso substring (s, place, size pattern) = pattern

fun find (pattern, s, from) =
  if from + size pattern > size s then NONE
  else if standsAt (pattern, s, from) then SOME from
  else find (pattern, s, from + 1)

(* All places, also where one occurrence laps over another. *)
fun places (pattern, s) =
  let
    fun from place =
      case find (pattern, s, place) of
        NONE => []
      | SOME found => found :: from (found + 1)
  in
    from 0
  end

(* Every occurrence replaced, from the left; a pattern isn't empty. *)
fun replace (pattern, new, s) =
  let
    fun from place =
      case find (pattern, s, place) of
        NONE => [substring (s, place, size s - place)]
      | SOME found => substring (s, place, found - place) :: new :: from (found + size pattern)
  in
    concat (from 0)
  end

(* A pattern with `?` for any character and `*` for any number of them. *)
fun matches (pattern, s) =
  let
    fun match (#"*" :: ps, cs) = match (ps, cs) orelse (not (null cs) andalso match (#"*" :: ps, tl cs))
      | match (#"?" :: ps, _ :: cs) = match (ps, cs)
      | match (p :: ps, c :: cs) = p = c andalso match (ps, cs)
      | match ([], []) = true
      | match (_, _) = false
  in
    match (explode pattern, explode s)
  end

(* Lines of at most so many characters, as far as words allow. *)
fun wrap (width, s) =
  let
    val text = newText ()

    fun place ([], _) = add (text, "\n")
      | place (word :: rest, used) =
          if used = 0 then (add (text, word); place (rest, size word))
          else if used + 1 + size word <= width then
            (add (text, " "); add (text, word); place (rest, used + 1 + size word))
          else (add (text, "\n"); place (word :: rest, 0))
  in
    place (words s, 0);
    contents text
  end

(* A few uses *)

val poem = "how much wood would a woodchuck chuck if a woodchuck could chuck wood"

fun numbers list = join ", " (map Int.toString list)

fun showMatch (pattern, s) =
  print (pattern ^ (if matches (pattern, s) then " matches " else " does not match ") ^ s ^ "\n")

fun showBar (name, n) = print (padRight (8, name) ^ padLeft (3, Int.toString n) ^ " " ^ repeat (n, "*") ^ "\n")

val () = print (wrap (24, poem))
val () = print (join " " (map capital (words poem)) ^ "\n")
val () = print ("wood at " ^ numbers (places ("wood", poem)) ^ "\n")
val () = print ("aa in aaaa at " ^ numbers (places ("aa", "aaaa")) ^ "\n")
val () = print (replace ("wood", "stone", poem) ^ "\n")
val () = print (replace ("chuck", "", "woodchuck") ^ "\n")

val secret = shift 3 "Attack at dawn, quiz at dusk"
val () = print (secret ^ "\n" ^ shift ~3 secret ^ "\n")
val () = print (mapString upper "shout" ^ " and " ^ mapString lower "WHISPER" ^ "\n")

val () =
  app showMatch
    [("w??d", "wood"), ("w??d", "word"), ("*chuck", "woodchuck"), ("*o*o*", "woodchuck"), ("?", ""), ("*", ""), ("a*b*c", "abcb")]

val () = app (fn word => showBar (word, length (places (word, poem)))) ["wood", "chuck", "would", "stone"]
val () = print (if "abc" < "abd" andalso "ab" < "abc" andalso "B" < "a" then "strings are ordered by their bytes\n" else "?\n")
