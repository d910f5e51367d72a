%% `--after-timeout MS`: a receive that waits for so long or longer waits for ever. That a timer of so long or longer never comes
%% the library sees to (timer_kinds.erl); here it is only noted.
-module(timeouts).

-export([lengthen/5]).

-include("core.hrl").

%% The tree with its timeouts from Limit on as infinity; Limit is none where nothing is asked.
%% The timers of the library that are processes are no receives of the source, and stay: none of them is so long.
lengthen(_, _, none, Ledger, Tree) -> {Tree, Ledger};
lengthen(library, "timer " ++ _, _, Ledger, Tree) -> {Tree, Ledger};
lengthen(Origin, _, Limit, Ledger, Tree) ->
    core_tree:walk(fun(N, P, L) -> rule(Origin, Limit, N, P, L) end, {"", 0}, Ledger, Tree).

%% A receive without clauses is a sleep, and stays.
rule(_, _, #c_receive{clauses = []} = R, _, L) -> {inside, R, L};
rule(Origin, Limit, #c_receive{timeout = #c_literal{val = T}} = R, {_, Line}, L) when is_integer(T), T >= Limit ->
    {inside, R#c_receive{timeout = core_tree:literal(infinity)}, note(Origin, "the timeout of ~w in line ~w is infinity here", [T, Line], L)};
rule(_, _, #c_receive{timeout = #c_literal{}} = R, _, L) -> {inside, R, L};
rule(Origin, Limit, #c_receive{timeout = T} = R, {_, Line}, L) ->
    {inside, R#c_receive{timeout = tested(T, Limit)}, note(Origin, "the timeout of line ~w is infinity here where it is ~w or more", [Line, Limit], L)};
rule(Origin, Limit, #c_call{module = #c_literal{val = M}, name = #c_literal{val = F}, args = [Time | Others]} = Call, {_, Line}, L) ->
    case {is_timer(M, F, length(Others)), Time} of
        {false, _} -> {inside, Call, L};
        {true, #c_literal{val = T}} when is_integer(T), T >= Limit -> {inside, Call, note(Origin, "the timer of ~w in line ~w never comes here", [T, Line], L)};
        {true, #c_literal{}} -> {inside, Call, L};
        {true, _} -> {inside, Call, note(Origin, "the timer of line ~w never comes here where it is of ~w or more", [Line, Limit], L)}
    end;
rule(_, _, Node, _, L) -> {inside, Node, L}.

%% Whether a call makes a timer of the time that is its first argument, which has so many after it.
is_timer(erlang, F, Others) -> lists:member({F, Others}, [{start_timer, 2}, {start_timer, 3}, {send_after, 2}, {send_after, 3}]);
is_timer(timer, F, Others) ->
    lists:member({F, Others}, [{send_after, 1}, {send_after, 2}, {send_interval, 1}, {send_interval, 2}, {apply_after, 3},
                               {exit_after, 1}, {exit_after, 2}, {kill_after, 0}, {kill_after, 1}]);
is_timer(_, _, _) -> false.

%% case T of V when is_integer(V) and V >= Limit -> infinity; V -> V
tested(Timeout, Limit) ->
    V = core_tree:variable('timeout@'),
    IsLong = core_tree:call_erlang([], 'and', [core_tree:call_erlang([], is_integer, [V]),
                                               core_tree:call_erlang([], '>=', [V, core_tree:literal(Limit)])]),
    #c_case{arg = Timeout, clauses = [core_tree:clause([V], IsLong, core_tree:literal(infinity)),
                                      core_tree:clause([V], V)]}.

note(source, Format, Arguments, L) -> ledger:note(Format, Arguments, L);
note(_, _, _, L) -> L.
