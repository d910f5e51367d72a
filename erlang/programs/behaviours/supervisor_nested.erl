%% A supervisor below another one: where it gives up it is started again with its workers; where the upper one ends, all do.
%% words: --after-timeout 5000
%% error: P ends {'result','false','true'}
%% error: P.1 ends {'result','false','true'}
%% error: P.1.2 ends 'shutdown'
%% error: P.1.2.2 ends 'failed'
%% error: P.1.6 ends 'shutdown'
%% error: P.1.6.2 ends 'shutdown'
-module(supervisor_nested).
-export([main/0, start_link/2, init/1, work/1]).

main() ->
    Main = self(),
    {ok, _} = supervisor:start_link(?MODULE, {upper, Main}),
    First = receive {began, Pid} -> Pid end,
    exit(First, failed),
    receive {began, Again} -> exit({result, is_process_alive(First), is_process_alive(Again)}) end.

start_link(supervisor, Args) -> supervisor:start_link(?MODULE, Args);
start_link(worker, Main) -> {ok, spawn_link(?MODULE, work, [Main])}.

init({upper, Main}) ->
    {ok, {#{intensity => 1}, [#{id => lower, start => {?MODULE, start_link, [supervisor, {lower, Main}]}, type => supervisor}]}};
init({lower, Main}) ->
    {ok, {#{intensity => 0}, [#{id => worker, start => {?MODULE, start_link, [worker, Main]}}]}}.

work(Main) ->
    Main ! {began, self()},
    receive after infinity -> ok end.
