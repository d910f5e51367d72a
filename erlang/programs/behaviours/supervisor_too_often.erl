%% A worker may fail once, and two hit it: where both hit, the supervisor ends. A hit between two workers is lost.
%% words: --after-timeout 5000
%% error: P ends {'result','hit','false'}
%% error: P ends {'result','hit','shutdown'}
%% error: P ends {'result','hit','true'}
%% error: P ends {'result','nobody','true'}
%% error: P.2 ends 'shutdown'
%% error: P.2 ends {'result','hit','true'}
%% error: P.2 ends {'result','nobody','true'}
%% error: P.2.2 ends 'failed'
%% error: P.2.2 ends 'shutdown'
%% error: P.2.6 ends 'failed'
%% error: P.2.6 ends 'shutdown'
-module(supervisor_too_often).
-export([main/0, start_link/0, init/1, work/0]).

main() ->
    process_flag(trap_exit, true),
    {ok, Supervisor} = supervisor:start_link(?MODULE, []),
    spawn(fun() -> hit() end),
    Mine = hit(),
    receive
        {'EXIT', Supervisor, Reason} -> exit({result, Mine, Reason})
    after 3 -> exit({result, Mine, is_process_alive(Supervisor)})
    end.

hit() -> try weak ! hit catch error:badarg -> nobody end.

start_link() ->
    Pid = spawn_link(?MODULE, work, []),
    register(weak, Pid),
    {ok, Pid}.

init([]) -> {ok, {#{intensity => 1, period => 5}, [#{id => weak, start => {?MODULE, start_link, []}}]}}.

work() -> receive hit -> exit(failed) end.
