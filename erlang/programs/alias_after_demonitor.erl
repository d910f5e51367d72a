%% Of two answers one goes to an alias that stays when its watch is ended, the other to one that ends with it.
%% want: main ends {true,true} and {true,false}: the first always comes, the second may come too late
%% depth: 21
%% error: P ends {'true','false'}
%% error: P ends {'true','true'}
-module(alias_after_demonitor).
-export([main/0]).

main() ->
    Me = self(),
    S = spawn(fun() -> receive {go, A, B} -> A ! stays, B ! ends, Me ! done end end),
    A = monitor(process, S, [{alias, explicit_unalias}]),
    B = monitor(process, S, [{alias, demonitor}]),
    S ! {go, A, B},
    demonitor(A, [flush]),
    demonitor(B, [flush]),
    receive done -> ok end,
    exit({got(stays), got(ends)}).

got(Message) -> receive Message -> true after 0 -> false end.
