%% Children are looked at and counted while one of them, which is transient, ends.
%% words: --after-timeout 5000
%% error: P ends {'result',[{'leave','false'},{'stay','true'}],[{'specs',2},{'active',1},{'supervisors',0},{'workers',2}]}
%% error: P ends {'result',[{'leave','true'},{'stay','true'}],[{'specs',2},{'active',1},{'supervisors',0},{'workers',2}]}
%% error: P ends {'result',[{'leave','true'},{'stay','true'}],[{'specs',2},{'active',2},{'supervisors',0},{'workers',2}]}
%% error: P.1 ends {'result',[{'leave','false'},{'stay','true'}],[{'specs',2},{'active',1},{'supervisors',0},{'workers',2}]}
%% error: P.1 ends {'result',[{'leave','true'},{'stay','true'}],[{'specs',2},{'active',1},{'supervisors',0},{'workers',2}]}
%% error: P.1 ends {'result',[{'leave','true'},{'stay','true'}],[{'specs',2},{'active',2},{'supervisors',0},{'workers',2}]}
%% error: P.1.2 ends 'shutdown'
%% error: P.1.3 ends 'shutdown'
-module(supervisor_counts).
-export([main/0, start_link/1, init/1, work/1]).

main() ->
    {ok, Supervisor} = supervisor:start_link(?MODULE, []),
    Ids = [{Id, is_pid(Pid)} || {Id, Pid, worker, [?MODULE]} <- supervisor:which_children(Supervisor)],
    exit({result, Ids, supervisor:count_children(Supervisor)}).

start_link(What) -> {ok, spawn_link(?MODULE, work, [What])}.

init([]) -> {ok, {#{}, [#{id => What, start => {?MODULE, start_link, [What]}, restart => transient} || What <- [stay, leave]]}}.

work(leave) -> exit(normal);
work(stay) -> receive after infinity -> ok end.
