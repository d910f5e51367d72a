%% Calls that ask for time or chance. Here they give the same each time.
-module(standing_still).

-export([kind/3, only_seeds/2]).

-include("core.hrl").

%% What a call asks for: time, chance or none.
kind(erlang, F, A) ->
    one_of({F, A}, [{monotonic_time, 0}, {monotonic_time, 1}, {system_time, 0}, {system_time, 1}, {timestamp, 0}, {now, 0},
                    {time_offset, 0}, {time_offset, 1}, {date, 0}, {time, 0}, {localtime, 0}, {universaltime, 0}, {statistics, 1}], time);
kind(os, F, A) -> one_of({F, A}, [{timestamp, 0}, {system_time, 0}, {system_time, 1}], time);
kind(timer, tc, _) -> time;
kind(M, F, A) when M =:= rand; M =:= random -> one_of({F, A}, [{uniform, 1}, {uniform_s, 2}], chance);
kind(_, _, _) -> none.

one_of(Name, Names, Kind) -> case lists:member(Name, Names) of true -> Kind; false -> none end.

%% Whether each use of a variable is in what makes a seed. Nothing depends on that here.
only_seeds(Variable, Tree) ->
    Seeds = fun(#c_call{module = #c_literal{val = M}, name = #c_literal{val = F}} = Call, N)
                  when M =:= rand, F =:= seed; M =:= rand, F =:= seed_s; M =:= random, F =:= seed -> N + core_tree:uses(Variable, Call);
               (_, N) -> N
            end,
    core_tree:fold(Seeds, 0, Tree) =:= core_tree:uses(Variable, Tree).
