%% Two philosophers, two forks; each takes the one at its left first.
%% want: deadlock in some schedule
%% depth: 56
%% error: P.1 ends 'killed'
%% error: P.2 ends 'killed'
%% error: deadlock of P P.1 P.2 P.3 P.4
-module(two_forks).
-export([start/0]).
-record(fork, {owner = none}).

start() ->
    [A, B] = [spawn(fun() -> fork(#fork{}) end) || _ <- [1, 2]],
    Me = self(),
    [spawn(fun() -> eat(L, R), Me ! ate end) || {L, R} <- [{A, B}, {B, A}]],
    [receive ate -> ok end || _ <- [1, 2]],
    [exit(F, kill) || F <- [A, B]].

eat(Left, Right) ->
    take(Left),
    take(Right),
    [F ! {put, self()} || F <- [Left, Right]].

take(F) ->
    F ! {take, self()},
    receive {taken, F} -> ok end.

fork(#fork{owner = none} = F) ->
    receive {take, P} -> P ! {taken, self()}, fork(F#fork{owner = P}) end;
fork(#fork{owner = P} = F) ->
    receive {put, P} -> fork(F#fork{owner = none}) end.
