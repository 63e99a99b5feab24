(* Searching graphs that are made of references: each node knows its neighbours, and what a search has found out about it. *)

datatype state = Unseen | Open | Done

datatype node =
    Node of {name : string, edges : edge list ref, state : state ref, distance : int option ref, from : node option ref}
withtype edge = node * int

type graph = node list ref   (* its nodes, the latest first *)

exception Missing of string
exception Cycle of string list

fun name (Node {name, edges, state, distance, from}) = name
fun edges (Node {name, edges, state, distance, from}) = edges
fun state (Node {name, edges, state, distance, from}) = state
fun distance (Node {name, edges, state, distance, from}) = distance
fun from (Node {name, edges, state, distance, from}) = from

(* References are equal where they are the same one; so are nodes, then. *)
fun same (a, b) = edges a = edges b

(* Making graphs *)

fun newNode (graph : graph, name) =
  let
    val node = Node {name = name, edges = ref [], state = ref Unseen, distance = ref NONE, from = ref NONE}
  in
    graph := node :: !graph;
    node
  end

fun find ([], wanted) = NONE
  | find (node :: nodes, wanted) = if name node = wanted then SOME node else find (nodes, wanted)

(* The node of a name, made where there is none. *)
fun node (graph, wanted) =
  case find (!graph, wanted) of
    SOME node => node
  | NONE => newNode (graph, wanted)

fun known (graph : graph, wanted) =
  case find (!graph, wanted) of
    SOME node => node
  | NONE => raise Missing wanted

fun connect graph (a, b, length) =
  let
    val start = node (graph, a)
    val goal = node (graph, b)
  in
    edges start := (goal, length) :: !(edges start)
  end

fun connectBoth graph (a, b, length) = (connect graph (a, b, length); connect graph (b, a, length))

fun forget (graph : graph) =
  app (fn node => (state node := Unseen; distance node := NONE; from node := NONE)) (!graph)

(* Breadth first: how many edges each node is away. What is still to be looked at waits in a queue. *)
fun breadth (graph, start) =
  let
    val queue = ref [start]

    fun meet (node, steps, before') =
      case !(distance node) of
        SOME _ => []
      | NONE => (distance node := SOME steps; from node := before'; [node])

    fun look node =
      foldl
        (fn ((next, _), met) => met @ meet (next, valOf (!(distance node)) + 1, SOME node))
        []
        (rev (!(edges node)))
  in
    forget graph;
    ignore (meet (start, 0, NONE));
    while not (null (!queue)) do
      let
        val node = hd (!queue)
      in
        queue := tl (!queue) @ look node
      end
  end

(* The shortest ways, by lengths: each edge may improve its goal, until none does. *)
fun shortest (graph, start) =
  let
    val changed = ref true

    fun improve (node, length, before') =
      let
        val better = case !(distance node) of NONE => true | SOME old => length < old
      in
        if better then (distance node := SOME length; from node := SOME before'; changed := true) else ()
      end

    fun relax node =
      case !(distance node) of
        NONE => ()
      | SOME far => app (fn (next, length) => improve (next, far + length, node)) (!(edges node))
  in
    forget graph;
    distance start := SOME 0;
    while !changed do (changed := false; app relax (!graph))
  end

(* The way by which a search has come to a node. *)
fun way node =
  let
    fun back (node, rest) =
      case !(from node) of
        NONE => name node :: rest
      | SOME earlier => back (earlier, name node :: rest)
  in
    back (node, [])
  end

(* Depth first: each node after all that it points to. A node that is met while it is open lies on a cycle. *)
fun sorted graph =
  let
    fun visit (node, path, order) =
      case !(state node) of
        Done => order
      | Open => raise Cycle (rev (name node :: path))
      | Unseen =>
          let
            val () = state node := Open
            val order = foldl (fn ((next, _), order) => visit (next, name node :: path, order)) order (rev (!(edges node)))
          in
            state node := Done;
            name node :: order
          end
  in
    forget graph;
    foldl (fn (node, order) => visit (node, [], order)) [] (!graph)
  end

(* The parts that hang together, where each edge goes both ways. *)
fun parts graph =
  let
    fun gather (node, met) =
      case !(state node) of
        Unseen => (state node := Done; foldl (fn ((next, _), met) => gather (next, met)) (name node :: met) (!(edges node)))
      | _ => met

    fun part (node, all) =
      case gather (node, []) of
        [] => all
      | names => rev names :: all
  in
    forget graph;
    foldl part [] (!graph)
  end

(* Roads *)

fun joined _ [] = ""
  | joined _ [text] = text
  | joined between (text :: texts) = concat (text :: map (fn t => between ^ t) texts)

fun line texts = print (concat texts ^ "\n")

val roads : graph = ref []

val () =
  app (connectBoth roads)
    [("Ashford", "Brook", 4),
     ("Ashford", "Castle", 2),
     ("Castle", "Brook", 1),
     ("Brook", "Dunes", 5),
     ("Castle", "Dunes", 8),
     ("Castle", "Elm", 10),
     ("Dunes", "Elm", 2),
     ("Elm", "Ferry", 3),
     ("Gull", "Haven", 6)]

fun tell (start, goal) =
  let
    val first = known (roads, start)
    val last = known (roads, goal)

    fun show (what, unit) =
      case !(distance last) of
        NONE => line ["  ", what, ": no way"]
      | SOME far => line ["  ", what, ": ", joined " - " (way last), ", ", Int.toString far, unit]
  in
    line [start, " to ", goal, if same (first, last) then ", which are one" else ""];
    breadth (roads, first);
    show ("with fewest stops", " roads");
    shortest (roads, first);
    show ("shortest", " miles")
  end
  handle Missing name => line ["  nothing is called ", name]

val () = app tell [("Ashford", "Ferry"), ("Brook", "Elm"), ("Elm", "Elm"), ("Ashford", "Haven"), ("Ashford", "Island")]
val () = app (fn names => line ["together: ", joined " " names]) (parts roads)

(* Tasks: each points to those that have to wait for it. *)

val tasks : graph = ref []

val () =
  app (fn (a, b) => connect tasks (a, b, 1))
    [("shop", "cook"), ("wash", "cook"), ("cook", "eat"), ("lay", "eat"), ("wash", "lay"), ("eat", "rest")]

fun plan graph =
  line ["order: ", joined ", " (sorted graph)]
  handle Cycle names => line ["no order: ", joined " before " names]

val () = plan tasks
val () = connect tasks ("rest", "shop", 1)
val () = plan tasks
