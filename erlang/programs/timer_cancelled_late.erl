%% A timer is cancelled when its message may be there already.
%% want: main ends {late,tick} in some schedule
%% depth: 5
%% error: P ends {'late','tick'}
-module(timer_cancelled_late).
-export([main/0]).

main() ->
    T = erlang:send_after(1, self(), tick),
    case erlang:cancel_timer(T) of
        false ->
            receive tick -> exit({late, tick}) end;
        _ -> ok
    end.
