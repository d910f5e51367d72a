%% A process waits for an answer or for its own timer, and cancels the timer when the answer is there: its message may have come.
%% want: main ends slow and both in some schedules
%% depth: 10
%% error: P ends 'both'
%% error: P ends 'slow'
-module(timer_for_oneself).
-export([main/0]).

main() ->
    Me = self(),
    spawn(fun() -> Me ! answer end),
    T = erlang:start_timer(1, self(), slow),
    receive
        answer ->
            erlang:cancel_timer(T),
            receive {timeout, T, slow} -> exit(both) after 0 -> ok end;
        {timeout, T, slow} -> exit(slow)
    end.
