%% A child is started, ended, started again and deleted, each at a time at which that is allowed or not.
%% words: --after-timeout 5000
%% error: P ends {'result',[{'error','running'},{'error','running'},{'error','not_found'}],'already_present','not_found'}
%% error: P ends {'result',[{'error','running'},{'error','running'},{'error','not_found'}],'already_present','ok'}
%% error: P ends {'result',[{'error','running'},{'error','running'},{'error','not_found'}],'ok','running'}
%% error: P.2 ends {'result',[{'error','running'},{'error','running'},{'error','not_found'}],'already_present','not_found'}
%% error: P.2 ends {'result',[{'error','running'},{'error','running'},{'error','not_found'}],'already_present','ok'}
%% error: P.2 ends {'result',[{'error','running'},{'error','running'},{'error','not_found'}],'ok','running'}
%% error: P.2.5 ends 'shutdown'
%% error: P.2.25 ends 'shutdown'
%% error: P.34 ends {'noproc',{'gen_server','call',['children',{'delete_child','a'},'infinity']}}
%% error: P.34 ends {{'result',[{'error','running'},{'error','running'},{'error','not_found'}],'already_present','ok'},{'gen_server','call',['children',{'delete_child','a'},'infinity']}}
-module(supervisor_changed).
-export([main/0, start_link/0, init/1, work/0]).

main() ->
    {ok, _} = supervisor:start_link({local, children}, ?MODULE, []),
    {ok, Pid} = supervisor:start_child(children, child()),
    {error, {already_started, Pid}} = supervisor:start_child(children, child()),
    Running = [supervisor:delete_child(children, a), supervisor:restart_child(children, a), supervisor:delete_child(children, b)],
    ok = supervisor:terminate_child(children, a),
    spawn(fun() -> supervisor:delete_child(children, a) end),
    Ended = supervisor:start_child(children, child()),
    exit({result, Running, kind(Ended), kind(supervisor:restart_child(children, a))}).

kind({Answer, Pid}) when is_pid(Pid) -> Answer;
kind({error, Why}) -> Why.

child() -> #{id => a, start => {?MODULE, start_link, []}}.

start_link() -> {ok, spawn_link(?MODULE, work, [])}.

init([]) -> {ok, {#{}, []}}.

work() -> receive after infinity -> ok end.
