%% A process starts a timer for another one and ends: the timer goes on, and a third one may cancel it.
%% want: main ends came and cancelled
%% depth: 16
%% error: P ends 'came'
%% error: P ends 'cancelled'
-module(timer_of_another).
-export([main/0]).

main() ->
    Me = self(),
    {P, M} = spawn_monitor(fun() -> Me ! {timer, erlang:send_after(1, Me, bell)} end),
    T = receive {timer, R} -> R end,
    receive {'DOWN', M, process, P, normal} -> ok end,
    C = spawn(fun() -> Me ! {cancelled, erlang:cancel_timer(T)} end),
    receive
        bell -> exit(came);
        {cancelled, false} -> receive bell -> exit(came_late) end;
        {cancelled, Left} when is_integer(Left), is_pid(C) -> exit(cancelled)
    end.
