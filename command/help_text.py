"""What `./explore --help` prints."""

HELP = """\
usage: ./explore FILE.erl|FILE.beam|FILE.core [FILE|FOLDER ..] [options]

Explores every order of events of a small concurrent Erlang program, and shows each error that it finds: what happens
before it, event by event, with the lines of the source.

The program begins in the first file. What it comes to is taken from the other files, from the modules of a folder and
those beside the first file, and from OTP's behaviours. Of a .beam file the debugging information is read.

A schedule is one order of events, step by step. All schedules are followed in which signals arrive at once, as
messages do on one node: each is in the mailbox when ! returns. They are followed until none is longer, to at most 400
steps. Where several lead to the same state, only the least of them is followed further. It stops early where it has
found as many states as it may, or where memory runs out. Then the report says to how many steps all schedules were
followed, and what helps. Where it found no error by then, a thousand random schedules are followed too: an error that
they show is reported. The first and the last lines of the report say how far it came.

What is explored:
  --entry [m:]f/0      The first process runs f/0, of the module m or of the first file. Without this it runs main/0,
                       or else the one exported function that has no arguments.
  --eunit              Explores each function of the first file whose name ends with _test and that has no arguments,
                       and prints a line for each, with the report where there is an error or not all was explored.
  -pa FOLDER           Takes compiled modules of FOLDER too, such as an application's ebin, with the environment that
                       its .app file sets.
  --env APP.KEY=TERM   The application APP is configured with this.
  --depth N            No schedule has more than N steps, 0 to 400. Without this 400.
  --nodes N            At most N states are found, 1 to 10000000. Without this a million.
  --any-delay          Signals take any time, as between nodes: messages of different senders overtake each other. Each
                       error that needs this is marked "only if signals overtake". It takes longer.
  --tree               Explores the tree of schedules, not the states, which most often takes far longer. There signals
                       take any time. Without --depth it explores all schedules of at most 8 steps, then of 16, of 24
                       and so on. It stops where no schedule is longer, where it has found errors and the next depth
                       would take long, or where it has visited as many nodes at one depth as --nodes says.
  --workers N          N threads explore, 1 to 16. Without this there is one. It helps with --tree. A search by states
                       gains next to nothing: only levels of 4096 states and more are shared out.
  --after-timeout MS   Timeouts and timers of MS milliseconds and more never come.
  --applications N     A process may call functions of its modules N times, 1 to 1000000, before it sends, receives or
                       asks for anything. One that calls more runs away. Without this 10000.
  --replay SCHEDULE    Shows what happens in one schedule, such as "P P P.1>P". Nothing is explored.

What counts as an error:
  --normal TERM        An end with this reason is no error. Write TERM as the report shows it: killed, {error,1}. In it
                       _ stands for any term: {error,_}. The option may be given up to 14 times.
  --strict-ends        An end with the reason shutdown or {shutdown,_} is an error too. Without this it is none, as
                       --normal says.
  --idle-servers       A deadlock is an error only where the first process waits in it. Where it has ended, the others
                       may wait, but messages that stay unread in their mailboxes are an error.
  --allow-deadlock     No deadlock is an error.
  --strict-access      A refused call of a table that belongs to another process is an error too.

What is printed:
  --unfold             Shows the events of each error. Without this one that follows from another error is a line below
                       that one, "and then: ..", with neither events nor drawing.
  --steps              Shows each step of a call, a cast and a start of OTP's behaviours. Without this the steps of one
                       are one line, where nothing comes between them.
  --chart              Draws each error as text, with a column for each process.
  --mermaid            Prints a Mermaid sequence diagram in the place of the events of each error, which code forges
                       draw where it is in a text of Markdown.
  --svg FOLDER         Draws each error into FOLDER/error_1.svg, error_2.svg and so on.
  --html FOLDER        Writes FOLDER/index.html: all errors with their events and drawings, and the source beside them.
  --junit FILE         Writes a JUnit XML file too, in which each error is a test that failed (docs/CI.md). With
                       --eunit each function is a test.
  --raw                Prints what the program prints, unchanged.
  --core               Prints the Core Erlang module that the file is converted to. Nothing is explored.
  --notes              Says on standard error what works otherwise than in Erlang.
  --no-notes           Leaves out the lines below a result that say where that may make it wrong.
  -h, --help           Prints this text.
  --version            Prints what ./schedule_explorer says of its version.

How the file is converted (erlang/README.md says more):
  --strict             Refuses a file in which anything is not read, with status 2. Without this a process that comes
                       to it stops there, and the report lists it as "not read".
  -I FOLDER            Looks for include files in FOLDER too.
  -D NAME[=VALUE]      Defines a macro.

The status says how it ended:
  0    No error was found. Or the schedule of --replay was shown, or what was asked for was printed.
  1    Errors were found. It does not matter whether all was explored.
  2    The file cannot be read or is refused, has no test for --eunit, or a step of --replay is not possible.
  3    No error was found, but the limit of states or nodes was met, or there was too little memory.
  4    The output, or the file of --junit, could not be written.
  64   The options are not understood.
  69   escript, of Erlang/OTP, is not on PATH; or rt is not, and the program has to be built.
  70   The program could not be built, or is not there.

Where a process came to what is not read and no error was found, the status is 3 too: what comes after is not explored.

An .erl file needs escript. A .core file with --raw does not; there --normal takes a term as that output shows it:
"'killed'", "{'error','_'}". Where the environment variable EXPLORER names a program, that one explores.

What the report says of schedules is proved of the Core Erlang module that --core prints. That this module does what
your Erlang does is not proved, only tested. The lines and the drawings are only tested too.
"""
