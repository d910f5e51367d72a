%% Programs of several modules: `%file NAME` begins a module, `%error E` is an error that is found, and `%stop WHAT` what is not
%% read and is come to. Where there is one error it is how the real machine ends too; `%errors` is not compared with it. Each
%% program is also linked from compiled modules alone, and finds the same.
-module(linked_tests).

-export([all/4]).

-define(DEPTH, 40).

all(Program, Here, Folder, Library) ->
    Blocks = blocks:read(filename:join(Here, "linked.txt")),
    lists:append([[{lists:concat(["linked: ", Kind, ": ", Title]), Outcome} || {Kind, Outcome} <- one(Block, {Program, Folder, Library})]
                  || {Title, _, _} = Block <- Blocks]).

one({_, Words, Lines}, {Program, Folder, Library}) ->
    Place = filename:join(Folder, "linked"),
    Compiled = filename:join(Folder, "compiled"),
    [file:del_dir_r(F) || F <- [Place, Compiled]],
    [ok = filelib:ensure_dir(filename:join(F, "file")) || F <- [Place, Compiled]],
    Names = written(Lines, Place),
    Wanted = wanted(Lines),
    [First | _] = [filename:join(Place, Name) || Name <- Names],
    {0, Text, _} = Converted = converter:run([First | Words], Library),
    Found = found(explorer:explore(Program, Folder, Text, ?DEPTH)),
    [{ok, _} = compile:file(filename:join(Place, Name), [debug_info, {outdir, Compiled}]) || Name <- Names],
    Beam = filename:join(Compiled, filename:rootname(hd(Names)) ++ ".beam"),
    {0, Again, _} = converter:run([Beam | Words], Library),
    [{source, same(Wanted, Found)},
     {text, same(Converted, converter:run([First | Words], Library))},
     {taken, same(true, explorer:is_taken_by_erlang(Text))},
     {compiled, same(Found, found(explorer:explore(Program, Folder, Again, ?DEPTH)))}
     | [{real, same(End, real(Names, Compiled, Words))} || {[End], []} <- [Wanted], [] =:= [L || "%errors " ++ _ = L <- Lines]]].

%% The names of the files, which are written into a folder.
written(["%file " ++ Name | Lines], Place) ->
    {Source, Rest} = lists:splitwith(fun("%file " ++ _) -> false; (_) -> true end, Lines),
    Code = [Line || Line <- Source, not lists:prefix("%", Line)],
    ok = file:write_file(filename:join(Place, Name), unicode:characters_to_binary(blocks:module(filename:rootname(Name), Code))),
    [Name | written(Rest, Place)];
written([], _) -> [].

%% {Errors, Stops}
wanted(Lines) ->
    Errors = [["P" ++ E || "%error P" ++ E <- [L]] ++ ["P" ++ E || "%errors P" ++ E <- [L]] || L <- Lines],
    {lists:append(Errors), [S || "%stop " ++ S <- Lines]}.

%% A process that stops waits for ever, which is no error.
found(Report) ->
    Stops = [stop(Line) || "refusal " ++ Line <- string:split(Report, "\n", all), string:find(Line, "ets:lookup('not read: ") =/= nomatch],
    {[E || E <- explorer:errors(Report), Stops =:= [] orelse not lists:prefix("deadlock of", E)], Stops}.

stop(Line) ->
    {match, [What]} = re:run(Line, "ets:lookup\\('not read: (.*)','none'\\) -> badarg \\(2 NoTable\\)", [{capture, all_but_first, list}]),
    What.

real(Names, Compiled, Words) ->
    Modules = [list_to_atom(filename:rootname(Name)) || Name <- Names],
    [begin code:purge(M), {module, M} = code:load_abs(filename:join(Compiled, atom_to_list(M))) end || M <- Modules],
    {Module, Function} = entry(Words, hd(Modules)),
    {Pid, Ref} = spawn_monitor(Module, Function, []),
    Reason = receive {'DOWN', Ref, process, Pid, R} -> R after 3000 -> waits end,
    [begin code:purge(M), code:delete(M) end || M <- Modules],
    "P ends " ++ real_terms:text(Reason).

entry(["--entry", Text], First) ->
    case string:lexemes(Text, ":/") of
        [Module, Function, "0"] -> {list_to_atom(Module), list_to_atom(Function)};
        [Function, "0"] -> {First, list_to_atom(Function)}
    end;
entry([], First) -> {First, main}.

same(Same, Same) -> passed;
same(Wanted, Found) -> {failed, {wanted, Wanted, found, Found}}.
