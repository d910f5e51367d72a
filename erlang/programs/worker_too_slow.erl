%% A worker is ended where it takes too long, and may just have answered.
%% want: main ends {ended,killed} in some schedule, and the worker killed; a worker that ended has answered
%% depth: 19
%% error: P ends {'ended','killed'}
%% error: P.1 ends 'killed'
-module(worker_too_slow).
-export([main/0]).

main() ->
    Me = self(),
    {W, M} = spawn_monitor(fun() -> Me ! {result, 42} end),
    {ok, T} = timer:kill_after(1, W),
    receive {'DOWN', M, process, W, Why} -> ok end,
    timer:cancel(T),
    receive {result, 42} -> ok after 0 -> exit({ended, Why}) end.
