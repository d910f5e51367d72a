%% A timer for a process that is told to stop: it comes before that, is cancelled, or is over with its process.
%% want: main ends over and cancelled; the worker may end ticked
%% depth: 10
%% error: P ends 'cancelled'
%% error: P ends 'over'
%% error: P.1 ends 'ticked'
-module(timer_for_the_dead).
-export([main/0]).

main() ->
    P = spawn(fun() -> receive stop -> ok; tick -> exit(ticked) end end),
    T = erlang:send_after(1, P, tick),
    P ! stop,
    receive after 1 -> ok end,
    case erlang:cancel_timer(T) of
        false -> exit(over);
        Left when is_integer(Left) -> exit(cancelled)
    end.
