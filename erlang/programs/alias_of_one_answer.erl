%% Two workers answer by one alias, which ends with the first answer: the other one is dropped.
%% want: main ends {only,1} and {only,2}
%% depth: 16
%% error: P ends {'only',1}
%% error: P ends {'only',2}
-module(alias_of_one_answer).
-export([main/0]).

main() ->
    A = alias([reply]),
    Workers = [spawn_monitor(fun() -> A ! {answer, N} end) || N <- [1, 2]],
    [receive {'DOWN', M, process, P, normal} -> ok end || {P, M} <- Workers],
    receive {answer, N} ->
        receive {answer, M} -> exit({both, N, M}) after 0 -> exit({only, N}) end
    end.
