(* The program over the proved checker of verdict lines, and not proved itself: its options. *)

let () = Answering.run {
  name = "checker";
  usage = "usage: checker [--steps T] [--cells S] [--depth D] [--nodes N] [FILE]";
  rest_of_help = "

Answers each verdict line of FILE or of standard input: ok, bad, over, open or unread, as bb check does.

  --steps T  steps of one run, 0 to 1000000000000 (default: 1000000)
  --cells S  cells of one tape, 1 to 67108864 (default: 65536)
  --depth D  levels of a tree, 0 to 10000 (default: 300)
  --nodes N  nodes of a tree, 0 to 1000000000000 (default: 1000000)

Status 0: every answer is ok or open; 1: one isn't; 2: words or limits were refused; 3: a fault.
";
  options = [
    "--steps", (0, 1_000_000_000_000, 1_000_000);
    "--cells", (1, 67_108_864, 65_536);
    "--depth", (0, 10_000, 300);
    "--nodes", (0, 1_000_000_000_000, 1_000_000)];
  longest = 1_024;
  check_limits = (fun value ->
    if 2 * value "--depth" - 1 > value "--cells" then Some "--depth does not fit in --cells" else None);
  reply = (fun limit chars ->
    Checker.(reply { max_steps = limit "--steps"; max_cells = limit "--cells";
                     max_depth = limit "--depth"; max_nodes = limit "--nodes" } chars));
}
