(* Unification of first-order terms, by Robinson: the most general substitution that makes two terms equal.

   Terms are variables, and functions of any number of arguments. A substitution binds variables one after the other: what a variable
   is bound to may hold variables that are bound in turn. *)

datatype term =
    Var of string
  | Fun of string * term list

type substitution = (string * term) list

exception Clash of term * term
exception Circular of string * term

(* Texts *)

fun separated _ [] = ""
  | separated _ [text] = text
  | separated between (text :: texts) = concat (text :: map (fn t => between ^ t) texts)

fun show (Var name) = name
  | show (Fun (name, [])) = name
  | show (Fun (name, terms)) = name ^ "(" ^ separated ", " (map show terms) ^ ")"

(* Substitutions *)

fun bound ([] : substitution, _) = NONE
  | bound ((name', term) :: rest, name) = if name = name' then SOME term else bound (rest, name)

(* What a term begins with: a variable that isn't bound, or a function. *)
fun walk (s, Var name) =
      (case bound (s, name) of
         SOME term => walk (s, term)
       | NONE => Var name)
  | walk (_, term) = term

(* The term with every bound variable replaced. *)
fun resolve (s, term) =
  case walk (s, term) of
    Var name => Var name
  | Fun (name, terms) => Fun (name, map (fn t => resolve (s, t)) terms)

fun occurs (s, name, term) =
  let
    fun any [] = false
      | any (t :: ts) = occurs (s, name, t) orelse any ts
  in
    case walk (s, term) of
      Var name' => name = name'
    | Fun (_, terms) => any terms
  end

fun bind (s, name, term) =
  if occurs (s, name, term) then raise Circular (name, resolve (s, term)) else (name, term) :: s

(* The substitution, extended so that both terms become equal. *)
fun unify (a, b, s : substitution) =
  case (walk (s, a), walk (s, b)) of
    (Var x, Var y) => if x = y then s else bind (s, x, Var y)
  | (Var x, term) => bind (s, x, term)
  | (term, Var y) => bind (s, y, term)
  | (left as Fun (f, xs), right as Fun (g, ys)) =>
      if f = g andalso length xs = length ys then unifyAll (xs, ys, s)
      else raise Clash (resolve (s, left), resolve (s, right))

and unifyAll (x :: xs, y :: ys, s) = unifyAll (xs, ys, unify (x, y, s))
  | unifyAll (_, _, s) = s

(* A few terms *)

fun constant name = Fun (name, [])
fun pair (a, b) = Fun ("pair", [a, b])
fun f terms = Fun ("f", terms)

val x = Var "X"
val y = Var "Y"
val z = Var "Z"
val a = constant "a"
val b = constant "b"

fun attempt (left, right) =
  (print (show left ^ " and " ^ show right ^ "\n");
   let
     val s = unify (left, right, [])
     val common = resolve (s, left)
   in
     print ("  both are " ^ show common ^ "\n");
     app (fn (name, term) => print ("  " ^ name ^ " = " ^ show (resolve (s, term)) ^ "\n")) (rev s);
     if common = resolve (s, right) then () else print "  but they differ\n"
   end)
  handle Clash (t, u) => print ("  " ^ show t ^ " is never " ^ show u ^ "\n")
       | Circular (name, t) => print ("  " ^ name ^ " would lie within " ^ show t ^ "\n")

val () =
  app attempt
    [(pair (x, b), pair (a, y)),
     (f [x, y, z], f [y, z, a]),
     (f [x, f [x, y]], f [pair (y, y), z]),
     (pair (x, x), pair (a, b)),
     (f [a, b], f [a]),
     (pair (x, y), pair (f [y], f [x])),
     (x, x)]

(* Types of functions are found by unification: here of lambda terms, without generalisation. *)

datatype lambda =
    Name of string
  | Lambda of string * lambda
  | Apply of lambda * lambda

exception Free of string

fun arrow (t, u) = Fun ("->", [t, u])

fun showType (Fun ("->", [t, u])) =
      (case t of
         Fun ("->", _) => "(" ^ showType t ^ ")"
       | _ => showType t) ^ " -> " ^ showType u
  | showType t = show t

fun typeOf expression =
  let
    val made = ref 0

    fun fresh () = (made := !made + 1; Var ("t" ^ Int.toString (!made)))

    (* the type of an expression, given those of its free names, and the substitution so far *)
    fun infer (known, Name name, s) =
          (case bound (known, name) of
             SOME t => (t, s)
           | NONE => raise Free name)
      | infer (known, Lambda (name, body), s) =
          let
            val parameter = fresh ()
            val (result, s) = infer ((name, parameter) :: known, body, s)
          in
            (arrow (parameter, result), s)
          end
      | infer (known, Apply (function, argument), s) =
          let
            val (t, s) = infer (known, function, s)
            val (u, s) = infer (known, argument, s)
            val result = fresh ()
          in
            (result, unify (t, arrow (u, result), s))
          end

    val (t, s) = infer ([], expression, [])
  in
    resolve (s, t)
  end

fun typing (title, expression) =
  print (title ^ " : " ^ showType (typeOf expression) ^ "\n")
  handle Circular _ => print (title ^ " has no type\n")
       | Free name => print (title ^ " has nothing for " ^ name ^ "\n")

val identity = Lambda ("x", Name "x")
val first = Lambda ("x", Lambda ("y", Name "x"))
val compose = Lambda ("f", Lambda ("g", Lambda ("x", Apply (Name "f", Apply (Name "g", Name "x")))))
val itself = Lambda ("x", Apply (Name "x", Name "x"))

val () =
  app typing
    [("identity", identity),
     ("first", first),
     ("compose", compose),
     ("first identity", Apply (first, identity)),
     ("compose first identity", Apply (Apply (compose, first), identity)),
     ("apply to itself", itself),
     ("a free name", Lambda ("x", Name "y"))]
