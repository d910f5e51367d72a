%% Of three workers in a row the second one fails: it and the third are started again, and the first one is not.
%% words: --after-timeout 5000
%% error: P ends {'result',[2,3],['true','false','true']}
%% error: P.1 ends {'result',[2,3],['true','false','true']}
%% error: P.1.2 ends 'shutdown'
%% error: P.1.4 ends 'failed'
%% error: P.1.6 ends 'shutdown'
%% error: P.1.15 ends 'shutdown'
%% error: P.1.17 ends 'shutdown'
%% error: P.1.19 ends 'shutdown'
-module(supervisor_rest_for_one).
-export([main/0, start_link/2, init/1, work/0]).

main() ->
    {ok, Supervisor} = supervisor:start_link(?MODULE, self()),
    [First, Second, Third] = [receive {started, Name, Pid} -> Pid end || Name <- [1, 2, 3]],
    exit(Second, failed),
    Next = [receive {started, Name, _} -> Name end || _ <- [second, third]],
    exit({result, Next, [is_process_alive(Pid) || Pid <- [First, Third, Supervisor]]}).

start_link(Name, Main) ->
    Pid = spawn_link(?MODULE, work, []),
    Main ! {started, Name, Pid},
    {ok, Pid}.

init(Main) ->
    {ok, {{rest_for_one, 1, 5}, [{Name, {?MODULE, start_link, [Name, Main]}, permanent, 100, worker, [?MODULE]} || Name <- [1, 2, 3]]}}.

work() -> receive after infinity -> ok end.
