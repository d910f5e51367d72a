%% Runs of a program on the real machine, with pauses of a random length before what it asks for.
-module(shaken_runs).

-export([load/2, run/3, pause/0]).

-include("../src/core.hrl").

-define(PARTS, 8).

%% The module with its pauses, loaded.
load(File, Module) ->
    {ok, Module, Core} = compile:file(File, [to_core, binary]),
    Defs = [{V, shaken(F)} || {V, F} <- Core#c_module.defs],
    {ok, Module, Code} = compile:forms(Core#c_module{defs = Defs}, [from_core, binary]),
    code:purge(Module),
    {module, Module} = code:load_binary(Module, File, Code),
    ok.

shaken(Function) ->
    {New, none} = core_tree:walk(fun rule/3, {"", 0}, none, Function),
    New.

%% No guard is shaken: each clause is walked by its body alone.
rule(#c_clause{body = Body} = C, Place, S) ->
    {New, S1} = core_tree:walk(fun rule/3, Place, S, Body),
    {done, C#c_clause{body = New}, S1};
rule(#c_call{module = #c_literal{val = M}, name = #c_literal{val = F}, args = Args} = C, _, S) ->
    case is_shaken(M, F, length(Args)) of
        true -> {done, paused(C), S};
        false -> {inside, C, S}
    end;
rule(#c_letrec{defs = [{#c_var{name = {Name, 0}}, _}]} = N, Place, S) ->
    {Inside, S1} = core_tree:children(fun(Child, T) -> core_tree:walk(fun rule/3, Place, T, Child) end, S, N),
    case atom_to_list(Name) of
        "recv$" ++ _ -> {done, paused(Inside), S1};
        _ -> {done, Inside, S1}
    end;
rule(N, _, S) -> {inside, N, S}.

is_shaken(erlang, F, 1) when F =:= spawn; F =:= spawn_link; F =:= spawn_monitor -> true;
is_shaken(erlang, cancel_timer, 1) -> true;
is_shaken(M, F, A) ->
    lists:member(M, [gen_server, gen_statem, gen_event, supervisor, sys, timer, ets]) orelse known_calls:is_request(M, F, A).

paused(Node) -> #c_seq{arg = core_tree:call([], ?MODULE, pause, []), body = Node}.

pause() ->
    case chance(6) of
        0 -> erlang:yield();
        1 -> timer:sleep(chance(4));
        2 -> timer:sleep(1);
        _ -> ok
    end.

%% A number below this one. (rand would keep its state in the dictionary of the process, where the program finds it.)
chance(N) -> erlang:phash2(make_ref(), N).

%% What became of one run: {Ends, Waits}, where Ends is [{first | other, Reason}] of those that ended
%% otherwise than normally, and Waits how many wait for ever, and whether the first one does. After Quiet milliseconds
%% without an event all that live, where they all wait, are taken to wait for ever. That time is waited for in parts, since a
%% busy machine may stand still for the whole of it: then one part is over, and in the next one what was late goes on.
run(Module, Entry, Quiet) ->
    First = spawn(fun() -> receive go -> Module:Entry() end end),
    1 = erlang:trace(First, true, [procs, set_on_spawn]),
    First ! go,
    {Ends, Live} = gather(First, [First], [], Quiet, ?PARTS),
    Refs = [begin exit(P, kill), monitor(process, P) end || P <- Live],
    [receive {'DOWN', R, process, _, _} -> ok end || R <- Refs],
    forget(),
    {[{role(P, First), R} || {P, R} <- Ends, R =/= normal], {length(Live), lists:member(First, Live)}}.

role(First, First) -> first;
role(_, _) -> other.

gather(First, Born, Ends, Quiet, Left) ->
    receive
        {trace, _, spawn, Child, _} -> gather(First, [Child | Born], Ends, Quiet, ?PARTS);
        {trace, P, exit, Reason} -> gather(First, Born, [{P, Reason} | Ends], Quiet, ?PARTS);
        {trace, _, _, _} -> gather(First, Born, Ends, Quiet, ?PARTS);
        {trace, _, _, _, _} -> gather(First, Born, Ends, Quiet, ?PARTS)
    after wait(Born, Ends, Quiet) ->
        Live = live(Born, Ends),
        case lists:all(fun waits/1, Live) of
            true when Left =:= 1; Live =:= [] -> {lists:reverse(Ends), Live};
            true -> gather(First, Born, Ends, Quiet, Left - 1);
            false -> gather(First, Born, Ends, Quiet, ?PARTS)
        end
    end.

%% Whether a process waits for a message, and not in a pause or for its turn.
waits(Pid) ->
    case process_info(Pid, [status, current_function]) of
        [{status, waiting}, {current_function, {timer, sleep, 1}}] -> false;
        [{status, waiting}, _] -> true;
        _ -> false
    end.

live(Born, Ends) -> lists:usort(Born) -- [P || {P, _} <- Ends].

%% Where nobody lives any more, what is on the way still comes.
wait(Born, Ends, Quiet) -> case live(Born, Ends) of [] -> 3; _ -> Quiet div ?PARTS end.

forget() -> receive {trace, _, _, _} -> forget(); {trace, _, _, _, _} -> forget() after 0 -> ok end.
