%% A semaphore of one place; the fun that runs inside may fail, and then the place is not given back.
%% want: deadlock of main where the failing one was first
%% depth: 20
%% error: P.2 ends 'oops'
%% error: deadlock of P P.1
%% error: deadlock of P.1
-module(semaphore_forgotten).
-export([main/0]).

main() ->
    S = spawn(fun() -> free() end),
    spawn(fun() -> inside(S, fun() -> exit(oops) end) end),
    inside(S, fun() -> fine end).

inside(S, Do) ->
    S ! {enter, self()},
    receive entered -> ok end,
    Value = Do(),
    S ! leave,
    Value.

free() ->
    receive {enter, P} -> P ! entered, taken() end.

taken() ->
    receive leave -> free() end.
