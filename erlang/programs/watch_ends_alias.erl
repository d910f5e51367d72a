%% A worker ends, and a helper answers for it by the alias of the worker's watch: the answer comes, or the end was told before.
%% want: main ends {answer,helped} and {ended,normal}
%% depth: 15
%% error: P ends {'answer','helped'}
%% error: P ends {'ended','normal'}
-module(watch_ends_alias).
-export([main/0]).

main() ->
    Worker = spawn(fun() -> receive {ask, _} -> ok end end),
    R = monitor(process, Worker, [{alias, reply_demonitor}]),
    Worker ! {ask, R},
    {Helper, M} = spawn_monitor(fun() -> R ! {R, helped} end),
    receive {'DOWN', M, process, Helper, normal} -> ok end,
    receive
        {R, Answer} -> exit({answer, Answer});
        {'DOWN', R, process, Worker, Why} -> exit({ended, Why})
    end.
