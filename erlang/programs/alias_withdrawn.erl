%% A process withdraws its alias, and looks what had come by then. What comes later is dropped.
%% want: main ends {true,[]}, {true,[1]} and {true,[1,2]}
%% depth: 15
%% error: P ends {'true',[]}
%% error: P ends {'true',[1]}
%% error: P ends {'true',[1,2]}
-module(alias_withdrawn).
-export([main/0]).

main() ->
    A = alias(),
    {P, M} = spawn_monitor(fun() -> A ! 1, A ! 2 end),
    receive after 1 -> ok end,
    Was = unalias(A),
    receive {'DOWN', M, process, P, normal} -> ok end,
    exit({Was, all()}).

all() -> receive N when is_integer(N) -> [N | all()] after 0 -> [] end.
