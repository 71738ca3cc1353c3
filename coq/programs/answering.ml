(* What both programs over the proved checkers of lines share, and not proved itself: the words, the lines of
   FILE or of standard input, an answer to each, and the exit status. *)

type program = {
  name : string;
  usage : string;
  rest_of_help : string;
  options : (string * (int * int * int)) list;  (* each with its least and greatest number, and its default *)
  longest : int;  (* characters of a line; no line that is read has as many *)
  check_limits : (string -> int) -> string option;  (* why limits that are in range are refused *)
  reply : (string -> Checker.n) -> char list -> Checker.answer;
}

let stop status text =
  (try flush stdout with Sys_error _ -> ());
  prerr_endline text;
  exit status

let refuse program text = stop 2 (program.name ^ ": " ^ text ^ "\n" ^ program.usage)

(* Decimal digits, a plus sign before them or not. *)
let set program given name text =
  let least, most, _ = List.assoc name program.options in
  if Hashtbl.mem given name then refuse program (name ^ " is given twice");
  let signed = text <> "" && text.[0] = '+' in
  let digits = if signed then String.sub text 1 (String.length text - 1) else text in
  let is_digit c = '0' <= c && c <= '9' in
  if digits = "" || not (String.for_all is_digit digits) then
    refuse program (text ^ " is no number for " ^ name);
  match int_of_string_opt ("0u" ^ digits) with
  | Some n when least <= n && n <= most -> Hashtbl.add given name n
  | _ -> stop 2 (program.name ^ ": " ^ name ^ " is out of range")

let take program file word = if file = None then Some word else refuse program ("unexpected " ^ word)

let rec read_words program given words file =
  match words with
  | [] -> file
  | ("--help" | "-h") :: _ -> print_string (program.usage ^ program.rest_of_help); exit 0
  | "--" :: rest -> List.fold_left (take program) file rest
  | name :: text :: rest when List.mem_assoc name program.options ->
    set program given name text; read_words program given rest file
  | word :: rest ->
    match String.index_opt word '=' with
    | Some at when List.mem_assoc (String.sub word 0 at) program.options ->
      set program given (String.sub word 0 at) (String.sub word (at + 1) (String.length word - at - 1));
      read_words program given rest file
    | _ when String.length word > 1 && word.[0] = '-' -> refuse program ("unexpected " ^ word)
    | _ -> read_words program given rest (take program file word)

let rec positive n =
  if n = 1 then Checker.XH
  else if n land 1 = 0 then Checker.XO (positive (n / 2)) else Checker.XI (positive (n / 2))
let natural n = if n = 0 then Checker.N0 else Checker.Npos (positive n)

(* The characters of the next line, of a long one the first of them. *)
let rec line longest channel chars count =
  match input_char channel with
  | '\n' -> Some (List.rev chars)
  | c -> line longest channel (if count < longest then c :: chars else chars) (count + 1)
  | exception End_of_file -> if count = 0 then None else Some (List.rev chars)

let text = function
  | Checker.Ok -> "ok\n" | Bad -> "bad\n" | Over -> "over\n" | Open -> "open\n" | Unread -> "unread\n"

let rec answer program limit channel fine =
  match line program.longest channel [] 0 with
  | exception Sys_error reason -> stop 3 (program.name ^ ": read failed: " ^ reason)
  | None -> fine
  | Some chars ->
    let reply = program.reply limit chars in
    print_string (text reply);
    answer program limit channel (fine && (reply = Checker.Ok || reply = Checker.Open))

let run program =
  Sys.set_signal Sys.sigpipe Sys.Signal_ignore;
  let given = Hashtbl.create 4 in
  let file = read_words program given (List.tl (Array.to_list Sys.argv)) None in
  let value name =
    let _, _, default = List.assoc name program.options in
    Option.value (Hashtbl.find_opt given name) ~default in
  Option.iter (fun reason -> stop 2 (program.name ^ ": " ^ reason)) (program.check_limits value);
  let limit name = natural (value name) in
  let channel = match file with
    | None -> stdin
    | Some path -> try open_in_bin path with Sys_error reason -> stop 3 (program.name ^ ": " ^ reason) in
  match let fine = answer program limit channel true in flush stdout; fine with
  | fine -> exit (if fine then 0 else 1)
  | exception Sys_error reason -> stop 3 (program.name ^ ": write failed: " ^ reason)
  | exception (Out_of_memory | Stack_overflow) -> stop 3 (program.name ^ ": out of memory")
