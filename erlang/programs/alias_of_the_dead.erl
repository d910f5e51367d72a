%% A worker is told an alias of a process that ends: what it sends there reaches nobody, and tells it nothing.
%% want: main ends told
%% depth: 16
%% error: P ends {'told','false'}
-module(alias_of_the_dead).
-export([main/0]).

main() ->
    Me = self(),
    {P, M} = spawn_monitor(fun() -> Me ! {use, alias()}, receive stop -> ok after 1 -> ok end end),
    A = receive {use, R} -> R end,
    P ! stop,
    hello = (A ! hello),
    receive {'DOWN', M, process, P, normal} -> ok end,
    hello = (A ! hello),
    exit({told, unalias(A)}).
