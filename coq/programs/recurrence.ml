(* The program over the proved checker of recurs lines, and not proved itself: its options. *)

let () = Answering.run {
  name = "recurrence";
  usage = "usage: recurrence [--steps T] [--cells S] [FILE]";
  rest_of_help = "

Answers each recurs line of FILE or of standard input: ok if its numbers are exact, bad if one isn't, over if
the limits are too small to tell. The words bad, over, open and unread get open; any other line gets unread.

  --steps T  steps up to the end of the first period, 0 to 1000000000000 (default: 1000000)
  --cells S  cells of the tape up to there, 1 to 67108864 (default: 65536)

A run that moves on is confirmed at its first record on that side after the first period, up to step T. The
check itself goes on for one period more.

Status 0: every answer is ok or open; 1: one isn't; 2: words or limits were refused; 3: a fault.
";
  options = [
    "--steps", (0, 1_000_000_000_000, 1_000_000);
    "--cells", (1, 67_108_864, 65_536)];
  longest = 8_192;
  check_limits = (fun _ -> None);
  reply = (fun limit chars ->
    Checker.(reply_recurrence { max_steps = limit "--steps"; max_cells = limit "--cells";
                                max_depth = N0; max_nodes = N0 } chars));
}
