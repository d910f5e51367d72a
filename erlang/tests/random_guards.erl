%% Random sequences of calls of aliases and timers: references that are aliases of all kinds, watches of processes and of names,
%% timers or nothing, to which the process itself and others send, and which are ended by all calls that may end one. Each gives
%% on the real machine what the explorer finds. What may come at any time is waited for, or settled before its answer is looked
%% at.
-module(random_guards).

-export([all/3]).

%% In each piece are groups of three sequences that come one after the other, since none of their timers is settled, and as
%% many sequences in which some are, each of which is explored by itself.
-define(PIECES, 100).
-define(GROUPS, 5).
-define(CALLS, 12).

%% No schedule of a group is longer.
-define(DEPTH, 400).

all(Program, Folder, Library) ->
    rand:seed(exsss, {13, 14, 15}),
    Pieces = [{N, lists:append([[[sequence(0) || _ <- [1, 2, 3]], [sequence(2)]] || _ <- lists:seq(1, ?GROUPS)])} || N <- lists:seq(1, ?PIECES)],
    [{lists:concat(["random: aliases and timers ", N]), try compared(Groups, {Program, Folder, Library}) catch C:R:S -> {failed, {C, R, S}} end} ||
        {N, Groups} <- Pieces].

compared(Groups, Around) ->
    Failed = [{Group, Why} || Group <- Groups, Why <- [one(Group, Around)], Why =/= passed],
    case Failed of
        [] -> passed;
        [{Group, Why} | _] -> {failed, {length(Failed), [lists:flatten(Text) || Text <- Group], Why}}
    end.

%% A group of sequences, one after the other, on both machines.
one(Sequences, {Program, Folder, Library}) ->
    File = written(Sequences, Folder),
    Real = real_terms:without_names("P ends " ++ real_terms:text(snippet_tests:ended(snippet_tests:load(File), main))),
    case converter:run([File], Library) of
        {0, Text, _} ->
            Report = explorer:explore_states(Program, Folder, Text, ?DEPTH),
            case [real_terms:without_names(E) || "P ends " ++ _ = E <- explorer:errors(Report)] of
                [Real] -> whole(Report);
                Found -> {real, Real, found, Found, Report}
            end;
        {_, _, Refused} -> {refused, lists:flatten(Refused)}
    end.

written(Sequences, Folder) ->
    File = filename:join(Folder, "guards.erl"),
    Named = [{["sequence", integer_to_list(N), "()"], Text} || {N, Text} <- lists:enumerate(Sequences)],
    Main = ["main() -> exit({result, [", lists:join(", ", [Call || {Call, _} <- Named]), "]})."],
    ok = file:write_file(File, blocks:module("guards", [Main | [[Call, " -> ", Text, "."] || {Call, Text} <- Named]] ++ helpers())),
    File.

whole(Report) ->
    case re:run(Report, "^depth [0-9]+, states [0-9]+, complete\n") of
        {match, _} -> passed;
        nomatch -> {not_whole, Report}
    end.

%% ---- the text of a piece

%% Others send what they are told; `gone` is a process that has ended. What a process sends by its own alias has come where it
%% has asked since whether it lives, in the explorer, and looked for a message, on the real machine. What is left in the mailbox
%% is told in its order, but of the ends of others only how many there are.
helpers() ->
    ["other() -> spawn(fun loop/0).",
     "loop() -> receive {send, To, M, From} -> To ! M, From ! sent, loop(); stop -> ok; _ -> loop() end.",
     "by(P, To, M) -> P ! {send, To, M, self()}, receive sent -> sent end.",
     "stop(P) -> M = monitor(process, P), P ! stop, receive {'DOWN', M, process, P, _} -> ok end, receive after 3 -> ok end.",
     "own(To, M) -> N = (To ! M), look(N).",
     "own_by_send(To, M) -> look(erlang:send(To, M)).",
     "look(N) -> is_process_alive(self()), receive never -> never after 0 -> N end.",
     "gone() -> {P, M} = spawn_monitor(fun() -> ok end), receive {'DOWN', M, process, P, _} -> P end.",
     "named(P, F) -> register(n, P), R = F(), unregister(n), R.",
     "ended(R) -> receive {'DOWN', R, process, _, noproc} -> R end.",
     "elsewhere(F) -> {_, M} = spawn_monitor(fun() -> exit(F()) end), receive {'DOWN', M, process, _, V} -> V end.",
     "came(T) -> receive {timeout, T, x} -> T end.",
     "settled(T) -> case erlang:cancel_timer(T) of false -> came(T); N when is_integer(N) -> T end.",
     "rest() -> receive {m, X} -> {L, N} = rest(), {[X | L], N}; {'DOWN', _, process, _, _} -> {K, M} = rest(), {K, M + 1} after 0 -> {[], 0} end."].

%% What a sequence has so far:
%%   others    the variables of others that live
%%   made      those of references
%%   open      those of timers for others, with these, whose answers may be several
%%   count     how many variables there are
%%   choices   how many more timers there may be that come or are cancelled
-record(made, {others = ["P1", "P2"], made = [], open = [], count = 0, choices}).

sequence(Choices) ->
    {Calls, Made} = lists:mapfoldl(fun(_, M) -> call(rand:uniform(24), M) end, #made{choices = Choices}, lists:seq(1, ?CALLS)),
    Bound = [["V", integer_to_list(N)] || N <- lists:seq(1, Made#made.count)],
    Shown = [V || V <- Bound, not lists:member(lists:flatten(V), Made#made.made)],
    ["P1 = other(), P2 = other(), P3 = gone(),\n    ", [[C, ",\n    "] || C <- Calls], "{[", lists:join(", ", Shown), "], rest()}"].

pick(L) -> lists:nth(rand:uniform(length(L)), L).

%% A variable with the value of a call, and what is made with it.
bound(Text, #made{count = N} = M) -> {[lists:concat(["V", N + 1]), " = ", Text], M#made{count = N + 1}}.

made(Text, #made{made = Made} = M) ->
    {Call, #made{count = N} = New} = bound(Text, M),
    {Call, New#made{made = [lists:concat(["V", N]) | Made]}}.

call(1, M) -> made("make_ref()", M);
call(N, M) when N =< 3 -> made(pick(["alias()", "alias([])", "alias([reply])", "alias([explicit_unalias])", "alias([reply, explicit_unalias])"]), M);
call(N, #made{others = [_ | _] = Others} = M) when N =< 5 -> made(["monitor(process, ", pick(["self()" | Others]), pick(["", options(), options(), options()]), ")"], M);
call(6, #made{others = [_ | _] = Others} = M) ->
    made(["named(", pick(["self()" | Others]), ", fun() -> monitor(process, ", pick(["n", "{n, node()}"]), pick(["", options(), options()]), ") end)"], M);
call(7, M) -> made(["ended(monitor(process, ", pick(["P3", "nobody", "{nobody, node()}"]), options(), "))"], M);
call(8, M) -> made(pick(["came(erlang:start_timer(1, self(), x))", "erlang:start_timer(5, P3, x)", "erlang:send_after(0, P3, {m, 0})"]), M);
call(9, #made{choices = C} = M) when C > 0 -> made("settled(erlang:start_timer(1, self(), x))", M#made{choices = C - 1});
call(10, #made{others = [_ | _] = Others, choices = 2} = M) ->
    Other = pick(Others),
    {Call, #made{made = [V | _], open = Open} = New} = made([pick(["erlang:start_timer", "erlang:send_after"]), "(100000, ", Other, ", x)"], M),
    {Call, New#made{open = [{V, Other} | Open], choices = 0}};
call(11, #made{others = [Other | Others], open = Open} = M) ->
    bound(["stop(", Other, ")"], M#made{others = Others, open = [One || {_, Of} = One <- Open, Of =/= Other]});
call(12, M) -> bound("rest()", M);
call(_, #made{made = []} = M) -> made(pick(["alias()", "alias([reply])"]), M);
call(N, #made{made = Made} = M) -> used(N, pick(Made), M).

options() -> pick([", [{alias, explicit_unalias}]", ", [{alias, demonitor}]", ", [{alias, reply_demonitor}]"]).

%% Messages are numbered by the variables that there are.
message(#made{count = N}) -> io_lib:format("{m, ~w}", [N]).

used(N, V, #made{others = [_ | _] = Others} = M) when N =< 16 -> bound(["by(", pick(Others), ", ", V, ", ", message(M), ")"], M);
used(17, V, M) -> bound([pick(["own", "own_by_send"]), "(", V, ", ", message(M), ")"], M);
used(18, V, M) -> bound(["elsewhere(fun() -> ", V, " ! ", message(M), " end)"], M);
used(N, V, M) when N =< 20 -> bound(["unalias(", V, ")"], M);
used(21, V, M) -> bound(["demonitor(", V, pick([")", ", [flush])"])], M);
used(22, V, M) -> bound(["elsewhere(fun() -> erlang:cancel_timer(", V, ") =:= 0 end)"], M);
used(23, V, M) -> bound(["elsewhere(fun() -> unalias(", V, ") end)"], M);
used(_, V, #made{open = Open} = M) ->
    Asked = [pick(["erlang:cancel_timer(", "erlang:cancel_timer(", "erlang:read_timer("]), V, ")"],
    case lists:keymember(V, 1, Open) of
        true -> bound(["case erlang:cancel_timer(", V, ") of _ -> some end"], M#made{open = lists:keydelete(V, 1, Open)});
        false -> bound(Asked, M)
    end.
