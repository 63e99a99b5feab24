(* The prelude: what the standard basis has above the initial basis, said in the language itself.
   It alone sees `Prim`, the structure of primitives; of the rest it sees the initial basis, with the fixities of the standard basis.
   What it declares outside `local` is in scope after it. Structures follow with modules.
   Functions on lists call their argument in the order of the list, unless their name says else. *)

datatype 'a option = NONE | SOME of 'a
datatype order = LESS | EQUAL | GREATER

exception Fail of string
exception Empty
exception Option

(* Truth values *)

fun not true = false
  | not false = true

fun x <> y = not (x = y)

(* References, composition, and evaluation for the effect alone *)

fun ! (ref x) = x

fun (f o g) x = f (g x)

fun a before (b : unit) = a

fun ignore _ = ()

(* Characters, strings and the output *)

val op ^ = Prim.cat
val print = Prim.print
val ord = Prim.ord
val chr = Prim.chr
val str = Prim.str
val size = Prim.size
val substring = Prim.part

(* Options *)

fun getOpt (SOME x, _) = x
  | getOpt (NONE, d) = d

fun isSome (SOME _) = true
  | isSome NONE = false

fun valOf (SOME x) = x
  | valOf NONE = raise Option

(* Lists *)

fun null [] = true
  | null _ = false

fun hd (x :: _) = x
  | hd [] = raise Empty

fun tl (_ :: r) = r
  | tl [] = raise Empty

fun foldl f a [] = a
  | foldl f a (x :: r) = foldl f (f (x, a)) r

fun length l = foldl (fn (_, n) => n + 1) 0 l

local
  (* the elements of the first list, the last one foremost, before the second *)
  fun revAppend ([], m) = m
    | revAppend (x :: r, m) = revAppend (r, x :: m)
in
  fun rev l = revAppend (l, [])

  fun l @ m = revAppend (rev l, m)
end

fun foldr f a l = foldl f a (rev l)

fun map f l = rev (foldl (fn (x, r) => f x :: r) [] l)

fun app f [] = ()
  | app f (x :: r) = (f x : unit; app f r)

(* Strings and lists. Neighbours are joined first, so each byte is copied as often as the list can be halved. *)

fun concat [] = ""
  | concat [s] = s
  | concat l =
      let
        fun two (a :: b :: r) = a ^ b :: two r
          | two r = r
      in
        concat (two l)
      end

fun explode s =
  let
    fun go (i, l) = if i < 0 then l else go (i - 1, Prim.sub (s, i) :: l)
  in
    go (size s - 1, [])
  end

fun implode l = concat (map str l)
