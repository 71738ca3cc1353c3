(* The program over the proved checker of lists, and not proved itself: the words, the bytes of FILE or of
   standard input, the line, and the exit status. *)

let usage = "usage: cover [--steps T] [--cells S] [--depth D] [--nodes N] [--below MACHINE] [--skeleton]\n"
  ^ "             [--assume FILE] [FILE]"

let help = usage ^ "

Checks that the verdict lines of FILE or of standard input are a walk in depth through all machines of a
size, and that each claim holds. Prints one line, as cover does.

  --steps T        steps of one run, 0 to 1000000000000 (default: 1000000000000)
  --cells S        cells of one tape, 1 to 67108864 (default: 67108864)
  --depth D        levels of a tree, 0 to 10000 (default: 10000)
  --nodes N        nodes of a tree, 0 to 1000000000000 (default: 1000000000000)
  --below MACHINE  the machine at which the walk begins (default: one with no entry)
  --skeleton       take lines that stand for shards, and add up their counts
  --assume FILE    count the undecided lines of its machines apart: lines MACHINE nonhalt

Status 0: the list covers its size; 1: it doesn't; 2: words, limits or machine were refused; 3: a fault.
"

let stop status text =
  (try flush stdout with Sys_error _ -> ());
  prerr_endline text;
  exit status

let refuse text = stop 2 ("cover: " ^ text ^ "\n" ^ usage)

(* Each option with its least and greatest number, the greatest by default, and what is given. *)
let numbers = [
  "--steps", (0, 1_000_000_000_000, ref None);
  "--cells", (1, 67_108_864, ref None);
  "--depth", (0, 10_000, ref None);
  "--nodes", (0, 1_000_000_000_000, ref None)]
let below = ref None
let skeleton = ref false
let assume = ref None
let file = ref None

let value name = let _, most, given = List.assoc name numbers in Option.value !given ~default:most

let set_once cell name value = if !cell <> None then refuse (name ^ " is given twice") else cell := Some value

(* Decimal digits, a plus sign before them or not. *)
let set_number name text =
  let _, _, given = List.assoc name numbers in
  let signed = text <> "" && text.[0] = '+' in
  let digits = if signed then String.sub text 1 (String.length text - 1) else text in
  let is_digit c = '0' <= c && c <= '9' in
  if digits = "" || not (String.for_all is_digit digits) then refuse (text ^ " is no number for " ^ name);
  match int_of_string_opt ("0u" ^ digits) with
  | Some n -> set_once given name n
  | None -> refuse (text ^ " is no number for " ^ name)

let is_option word = String.length word > 1 && word.[0] = '-'
let texts = ["--below", below; "--assume", assume]
let takes_value name = List.mem_assoc name texts || List.mem_assoc name numbers
let set name text =
  match List.assoc_opt name texts with
  | Some cell -> set_once cell name text
  | None -> set_number name text
let take word = if !file = None then file := Some word else refuse ("unexpected " ^ word)

let rec read_words words =
  match words with
  | [] -> ()
  | ("--help" | "-h") :: _ -> print_string help; exit 0
  | "--" :: rest -> List.iter take rest
  | "--skeleton" :: rest ->
    if !skeleton then refuse "--skeleton is given twice";
    skeleton := true;
    read_words rest
  | name :: text :: rest when takes_value name && not (is_option text) -> set name text; read_words rest
  | word :: rest ->
    match String.index_opt word '=' with
    | Some at when takes_value (String.sub word 0 at) ->
      set (String.sub word 0 at) (String.sub word (at + 1) (String.length word - at - 1));
      read_words rest
    | _ when is_option word -> refuse ("unexpected " ^ word)
    | _ -> take word; read_words rest

let check_range name =
  let least, most, _ = List.assoc name numbers in
  if value name < least || value name > most then
    stop 2 ("cover: " ^ String.sub name 2 (String.length name - 2) ^ " out of range")

let rec positive n =
  if n = 1 then Lists.XH
  else if n land 1 = 0 then Lists.XO (positive (n / 2)) else Lists.XI (positive (n / 2))
let natural n = if n = 0 then Lists.N0 else Lists.Npos (positive n)

let characters text = List.of_seq (String.to_seq text)
let text_of chars = String.of_seq (List.to_seq chars)

(* Whether some machine's text begins with this one. *)
let begins_machine text =
  let groups = String.split_on_char '_' text in
  let first = List.hd groups in
  let symbols = if List.length groups > 1 then String.length first / 3 else 10 in
  let is_begun group at =
    match group.[at - at mod 3], at mod 3 with
    | '-', _ -> group.[at] = '-'
    | digit, 0 -> '0' <= digit && Char.code digit - Char.code '0' < symbols
    | _, 1 -> group.[at] = 'L' || group.[at] = 'R'
    | _ -> 'A' <= group.[at] && group.[at] <= 'Z' in
  let fits at group =
    let length = String.length group in
    length <= 3 * symbols && (at = List.length groups - 1 || length = 3 * symbols)
    && List.for_all (is_begun group) (List.init length Fun.id) in
  2 <= symbols && symbols <= 10 && List.length groups <= 25 && List.for_all Fun.id (List.mapi fits groups)

(* 1 plus the length of the longest beginning of a machine's text. *)
let column text =
  let rec grow n =
    if n < String.length text && begins_machine (String.sub text 0 (n + 1)) then grow (n + 1) else n in
  1 + grow 0

(* The machines of the lines of a file; empty lines have none. *)
let assumed_in path =
  let refuse_line number =
    stop 2 ("cover: line " ^ string_of_int number ^ " of the file of --assume isn't MACHINE nonhalt") in
  let machine_in number line =
    let at = Option.value (String.index_opt line ' ') ~default:0 in
    if String.sub line at (String.length line - at) <> " nonhalt" then refuse_line number;
    match Lists.machine_of (characters (String.sub line 0 at)) with
    | Some machine -> machine
    | None -> refuse_line number in
  let rec read channel number found =
    match input_line channel with
    | exception End_of_file -> close_in channel; List.rev found
    | "" -> read channel (number + 1) found
    | line -> read channel (number + 1) (machine_in number line :: found) in
  try read (open_in_bin path) 1 [] with Sys_error _ -> stop 3 "cover: read failed"

let task () =
  List.iter (fun (name, _) -> check_range name) numbers;
  if 2 * value "--depth" - 1 > value "--cells" then stop 2 "cover: depth does not fit in cells";
  let limit name = natural (value name) in
  let bounds = Lists.{ max_steps = limit "--steps"; max_cells = limit "--cells";
                       max_depth = limit "--depth"; max_nodes = limit "--nodes" } in
  let first text =
    match Lists.machine_of (characters text) with
    | Some machine -> machine
    | None ->
      let at = string_of_int (column text) in
      stop 2 ("cover: the text of --below is no machine: refused at column " ^ at) in
  let below = Option.map first !below in
  let assumed = match !assume with None -> [] | Some path -> assumed_in path in
  Lists.{ bounds; below; skeleton = !skeleton; assumed }

let rec read_all task channel buffer reader =
  match input channel buffer 0 (Bytes.length buffer) with
  | exception Sys_error _ -> stop 3 "cover: read failed"
  | 0 -> Lists.close task reader
  | count ->
    let reader = ref reader in
    for at = 0 to count - 1 do reader := Lists.feed task !reader (Bytes.get buffer at) done;
    read_all task channel buffer !reader

let () =
  Sys.set_signal Sys.sigpipe Sys.Signal_ignore;
  read_words (List.tl (Array.to_list Sys.argv));
  let task = task () in
  let channel = match !file with
    | None -> stdin
    | Some path -> try open_in_bin path with Sys_error _ -> stop 3 "cover: read failed" in
  match
    let found = read_all task channel (Bytes.create 65_536) Lists.no_bytes in
    print_endline (text_of (Lists.report task found));
    flush stdout;
    found
  with
  | found -> exit (if Lists.is_on found then 0 else 1)
  | exception Sys_error _ -> stop 3 "cover: write failed"
  | exception (Out_of_memory | Stack_overflow) -> stop 3 "cover: out of memory"
