(* A bank on one morning, simulated: customers come, wait in one line, and are served at a few counters.

   What is to happen stands in a priority queue, by time. The queue is a leftist heap: a tree whose root is its least member, and in
   which the way down along right children is short. *)

(* Leftist heaps *)

datatype 'a heap =
    Hollow
  | Heap of int * 'a * 'a heap * 'a heap   (* the length of the way down to the right, the least member, two smaller heaps *)

fun rank Hollow = 0
  | rank (Heap (r, _, _, _)) = r

fun join (x, a, b) =
  if rank a < rank b then Heap (rank a + 1, x, b, a) else Heap (rank b + 1, x, a, b)

fun merge (_, a, Hollow) = a
  | merge (_, Hollow, b) = b
  | merge (less, a as Heap (_, x, a1, a2), b as Heap (_, y, b1, b2)) =
      if less (x, y) then join (x, a1, merge (less, a2, b)) else join (y, b1, merge (less, a, b2))

fun insert (less, x, heap) = merge (less, Heap (1, x, Hollow, Hollow), heap)

(* The least member and the heap without it. *)
fun least (_, Hollow) = NONE
  | least (less, Heap (_, x, a, b)) = SOME (x, merge (less, a, b))

(* Lines: those at the front, and those at the end in reverse. *)

type 'a line = 'a list * 'a list

fun enter (x, (front, back) : 'a line) = (front, x :: back)

fun leave (([], []) : 'a line) = NONE
  | leave ([], back) = leave (rev back, [])
  | leave (x :: front, back) = SOME (x, (front, back))

(* Random numbers, each 171 times the last one modulo 30269: no product is large. *)

val seed = ref 17

fun random (from, to) =
  (seed := 171 * !seed mod 30269;
   from + !seed mod (to - from + 1))

(* Events *)

type customer = {number : int, arrived : int}

datatype event =
    Arrives of customer
  | Leaves of customer

(* An entry is a time, its number among all entries and an event. What happens at one time happens in the order of the entries. *)
type entry = int * int * event

fun sooner ((t, i, _) : entry, (u, j, _) : entry) = t < u orelse t = u andalso i < j

(* One morning *)

type results = {served : int, waited : int, longest : int, closed : int}

fun simulate (counters, customers, report) =
  let
    val entries = ref (Hollow : entry heap)
    val made = ref 0
    val line = ref (([], []) : customer line)
    val free = ref counters
    val served = ref 0
    val waited = ref 0
    val longest = ref 0

    fun plan (time, event) =
      (made := !made + 1;
       entries := insert (sooner, (time, !made, event), !entries))

    fun tell (time, {number, arrived} : customer, what) =
      if report then print ("  " ^ Int.toString time ^ ": customer " ^ Int.toString number ^ what ^ "\n") else ()

    fun serve (time, customer as {number = _, arrived}) =
      let
        val wait = time - arrived
      in
        free := !free - 1;
        waited := !waited + wait;
        if wait > !longest then longest := wait else ();
        tell (time, customer, if wait = 0 then " is served at once" else " is served after " ^ Int.toString wait);
        plan (time + random (3, 12), Leaves customer)
      end

    fun happen (time, Arrives (customer as {number, arrived = _})) =
          (if number < customers then
             let
               val next = time + random (1, 5)
             in
               plan (next, Arrives {number = number + 1, arrived = next})
             end
           else ();
           if !free > 0 then serve (time, customer)
           else (tell (time, customer, " waits"); line := enter (customer, !line)))
      | happen (time, Leaves customer) =
          (free := !free + 1;
           served := !served + 1;
           tell (time, customer, " leaves");
           case leave (!line) of
             NONE => ()
           | SOME (next, others) => (line := others; serve (time, next)))

    fun run last =
      case least (sooner, !entries) of
        NONE => last
      | SOME ((time, _, event), others) =>
          (entries := others;
           happen (time, event);
           run time)
  in
    plan (0, Arrives {number = 1, arrived = 0});
    let
      val closed = run 0
    in
      {served = !served, waited = !waited, longest = !longest, closed = closed} : results
    end
  end

(* A number of tenths as a decimal. *)
fun tenths n = Int.toString (n div 10) ^ "." ^ Int.toString (n mod 10)

fun summary (counters, customers) =
  let
    val () = seed := 17
    val {served, waited, longest, closed} = simulate (counters, customers, false)
  in
    print (Int.toString counters ^ (if counters = 1 then " counter: " else " counters: ") ^ Int.toString served ^ " customers by " ^ Int.toString closed ^
      ", mean wait " ^ tenths (10 * waited div served) ^ ", longest " ^ Int.toString longest ^ "\n")
  end

val () = print "The first customers at two counters\n"
val _ = simulate (2, 6, true)
val () = app (fn counters => summary (counters, 200)) [1, 2, 3, 4]

(* The heap alone sorts. *)
fun sort less list =
  let
    fun all (heap, sorted) =
      case least (less, heap) of
        NONE => rev sorted
      | SOME (x, others) => all (others, x :: sorted)
  in
    all (foldl (fn (x, heap) => insert (less, x, heap)) Hollow list, [])
  end

val () = print (concat (map (fn n => Int.toString n ^ " ") (sort (op <) [31, 4, 15, 9, 26, 5, 3, 58])) ^ "\n")
val () = print (concat (map (fn s => s ^ " ") (sort (op >) ["pear", "apple", "plum", "fig"])) ^ "\n")
