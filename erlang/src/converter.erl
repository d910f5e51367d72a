%% From Erlang modules to the text of one Core Erlang module that the explorer reads.
-module(converter).

-export([main/2, run/2]).

-include("core.hrl").

-record(options, {files = [], folders = [], entry = none, after_timeout = none, applications = none, strict = false, tests = false, notes = false, doubts = none, places = none, environment = [],
                  compiler = []}).

usage() ->
    "usage: convert.escript FILE.erl|FILE.beam [FILE|FOLDER ..] [-pa FOLDER] [--entry [m:]f/0] [--after-timeout MS] [--applications N] [--strict] [--tests] [--notes]"
    " [--doubts FILE] [--places FILE] [--env APPLICATION.KEY=TERM] [-I DIR] [-D NAME[=VALUE]]\n".

%% Prints, and gives the status. Library is the folder's library (packed_functions.erl).
main(Words, Library) ->
    ok = io:setopts(standard_io, [{encoding, utf8}]),
    ok = io:setopts(standard_error, [{encoding, utf8}]),
    {Status, Output, Errors} = run(Words, Library),
    ok = io:put_chars(standard_error, Errors),
    ok = io:put_chars(Output),
    Status.

%% {Status, Output, Errors}
run(Words, Library) ->
    case options(Words, #options{}) of
        {ok, #options{files = [_ | _] = Files, tests = true} = Options} -> tests(Options#options{files = lists:reverse(Files)}, Library);
        {ok, #options{files = [_ | _] = Files} = Options} -> told(convert(Options#options{files = lists:reverse(Files)}, Library), Options);
        _ -> {64, "", usage()}
    end.

options(["--entry", Entry | T], O) ->
    case string:split(Entry, "/") of
        [Named, "0"] when Named =/= "" -> options(T, O#options{entry = entry(string:split(Named, ":"))});
        _ -> error
    end;
options(["--after-timeout", Text | T], O) ->
    case string:to_integer(Text) of
        {N, []} when N >= 0 -> options(T, O#options{after_timeout = N});
        _ -> error
    end;
options(["--applications", Text | T], O) ->
    case string:to_integer(Text) of
        {N, []} when N >= 1, N =< 1000000 -> options(T, O#options{applications = N});
        _ -> error
    end;
options(["--strict" | T], O) -> options(T, O#options{strict = true});
options(["--tests" | T], O) -> options(T, O#options{tests = true});
options(["--notes" | T], O) -> options(T, O#options{notes = true});
options(["--doubts", File | T], O) -> options(T, O#options{doubts = File});
options(["--places", File | T], O) -> options(T, O#options{places = File});
options(["-pa", Folder | T], #options{folders = Folders} = O) -> options(T, O#options{folders = Folders ++ [Folder]});
options(["--env", Text | T], #options{environment = Set} = O) ->
    case value_set(string:split(Text, "=")) of
        error -> error;
        One -> options(T, O#options{environment = [One | Set]})
    end;
options(["-I", Directory | T], #options{compiler = C} = O) -> options(T, O#options{compiler = C ++ [{i, Directory}]});
options(["-D", Text | T], #options{compiler = C} = O) -> options(T, O#options{compiler = C ++ [defined(Text)]});
options(["-" ++ _ | _], _) -> error;
options([File | T], #options{files = Files} = O) -> options(T, O#options{files = [File | Files]});
options([], O) -> {ok, O}.

entry([F]) -> {list_to_atom(F)};
entry([Module, F]) -> {list_to_atom(Module), list_to_atom(F)}.

%% -D NAME is true, -D NAME=VALUE is the term
defined(Text) ->
    case string:split(Text, "=") of
        [Name] -> {d, list_to_atom(Name)};
        [Name, Value] ->
            case term(Value) of
                {ok, Term} -> {d, list_to_atom(Name), Term};
                error -> {d, list_to_atom(Name), Value}
            end
    end.

%% --env APPLICATION.KEY=TERM
value_set([Named, Value]) ->
    case {string:split(Named, "."), term(Value)} of
        {[Application, Key], {ok, Term}} -> {list_to_atom(Application), list_to_atom(Key), Term};
        _ -> error
    end;
value_set(_) -> error.

term(Text) ->
    case erl_scan:string(Text ++ ".") of
        {ok, Tokens, _} ->
            case erl_parse:parse_term(Tokens) of
                {ok, Term} -> {ok, Term};
                _ -> error
            end;
        _ -> error
    end.

told({error, Lines}, _) -> {2, "", Lines};
told({ok, File, Text, Places, Ledger}, #options{notes = WithNotes, doubts = DoubtFile, places = PlaceFile}) ->
    Notes = case WithNotes of true -> ledger:notes(Ledger); false -> "" end,
    Unwritten = written(DoubtFile, fun() -> ledger:doubts(Ledger) end) ++ written(PlaceFile, Places),
    case {ledger:refusals(Ledger), Unwritten} of
        {[], []} -> small(File, unicode:characters_to_binary(Text()), Notes);
        {Refusals, Unwritten} -> {2, "", [Notes, Refusals, Unwritten]}
    end.

%% Writes a file beside the module, if it is asked for; where it cannot be written that is said.
written(none, _) -> [];
written(File, Text) ->
    case file:write_file(File, unicode:characters_to_binary(Text())) of
        ok -> [];
        _ -> [io_lib:format("~ts cannot be written~n", [File])]
    end.

%% The explorer reads no larger text.
small(File, Text, Notes) when byte_size(Text) > 1048576 ->
    {2, "", [Notes, io_lib:format("~ts: a text of ~w bytes is not read, only 1048576~n", [File, byte_size(Text)])]};
small(_, Text, Notes) -> {0, Text, Notes}.

%% The names of EUnit's tests in the first module, and of the functions that make some, a line each.
tests(#options{files = Files, folders = Folders, compiler = Words}, Library) ->
    case modules:open(Files, Folders, Words, none, linker:modules_of(Library)) of
        {error, Lines} -> {2, "", Lines};
        {ok, _, Modules} -> {0, [[Name, "\n"] || Name <- names(Modules), is_test(Name)], ""}
    end.

names(Modules) -> [atom_to_list(F) || {F, 0} <- modules:functions(modules:main(Modules), Modules)].

is_test(Name) -> lists:suffix("_test", Name) orelse lists:suffix("_test_", Name).

%% {ok, File, Text, Places, Ledger}, where Text() is the text if nothing was refused, Places() that of the places of its
%% functions, and File is the first one.
convert(#options{files = Files, folders = Folders, entry = Entry, environment = Set, compiler = Words} = Options, Library0) ->
    Configured = environment:functions(modules:environment(Folders) ++ lists:reverse(Set)),
    Library = maps:merge(Library0, packed_functions:pack(Configured)),
    try
        case modules:open(Files, Folders, Words, named(Entry), linker:modules_of(Library)) of
            {error, Lines} -> {error, Lines};
            {ok, RunsWhenLoaded, Modules} ->
                {Text, Places, Ledger} = begun(RunsWhenLoaded, Modules, Options, Library, ledger:new(Options#options.strict)),
                {ok, modules:file(Modules), Text, Places, Ledger}
        end
    catch throw:{unreadable, Why} -> {error, Why}
    end.

named({Module, _}) -> Module;
named(_) -> none.

begun(RunsWhenLoaded, Modules, #options{entry = Asked} = Options, Library, New) ->
    Ledger = case RunsWhenLoaded of
        true -> ledger:refuse_file(modules:file(Modules), "-on_load is not read", New);
        false -> New
    end,
    case entry_point:settle(Asked, Modules, Ledger) of
        {none, _, L} -> {none, fun() -> "" end, L};
        {Entry, Modules1, L} -> converted(Entry, Modules1, Options, Library, L)
    end.

converted(Entry, Modules, Options, Library, L0) ->
    Module = modules:main(Modules),
    File = modules:file(Modules),
    Limit = Options#options.after_timeout,
    Link = fun(Replace, Timers, Here) ->
                   Known = timer_kinds:library(Timers, Limit, Library),
                   linker:link(Entry, {Here, Known}, fun(D, L) -> prepared(Replace(D), Known, Options, L) end, L0)
           end,
    {Tables, {Called, Exports, Read, _, L1}} = with_kinds(Link, Modules, Limit),
    L2 = doubts:find([Ds || {_, [#definition{origin = source} | _] = Ds} <- Read], Tables, L1),
    Complete = atom_texts:complete(table_forms:settle(Tables, Called)),
    Size = odd_tuples:free_size([D#definition.code || D <- Complete]),
    Plain = [odd_tuples:replace(Size, D) || D <- Complete],
    {FirstOrder, NewExports, L3} = function_values:replace(Plain, Module, Size, L2),
    AllExports = lists:usort(Exports ++ NewExports),
    Reached = reach:by_names(FirstOrder, [{main, 0} | AllExports]),
    {Stopped, L4} = stops:put(Reached, Module, AllExports, L3),
    Ledger = readable:check(File, Stopped, Module, AllExports, L4),
    {fun() -> core_text:module(File, Module, {AllExports, Options#options.applications}, Stopped) end, fun() -> clause_places:text(File, Stopped) end, Ledger}.

%% Which tables and timers there are is known once it is known what is reached: where there are some that need it, it is linked
%% again, with the calls of ets as they have to be, and with timers of the library.
with_kinds(Link, Modules, Limit) ->
    Same = fun(D) -> D end,
    {_, _, Read, Loaded, _} = Linked = Link(Same, explored, Modules),
    Definitions = lists:append([Ds || {_, Ds} <- Read]),
    Tables = table_kinds:of_source(Definitions),
    case {table_kinds:is_none(Tables), timer_kinds:of_source(Definitions, Limit)} of
        {true, explored} -> {Tables, Linked};
        {true, Timers} -> {Tables, Link(Same, Timers, Loaded)};
        {false, Timers} -> {Tables, Link(fun(D) -> table_forms:replace(D, Tables) end, Timers, Loaded)}
    end.

%% A definition with its receives, clauses, timeouts, maps and binaries in forms that are read.
prepared(#definition{code = Code, origin = Origin, home = Home} = D, Library, #options{after_timeout = Limit}, L0) ->
    {Begun, L} = spawn_options:replace(Code, L0),
    Restored = receives:restore(Begun),
    Matching = case ledger:is_strict(L) of
        true -> Restored;
        false -> stops:leave_out(Home, Restored)
    end,
    {Lengthened, L1} = timeouts:lengthen(Origin, Home, Limit, L, Matching),
    {New, L2} = clause_forms:replace(Home, Library, L1, Lengthened),
    {D#definition{code = New}, L2}.
