%% A worker that is not wanted says ignore: it has no process, and may be started again later, when it is wanted.
%% words: --after-timeout 5000
%% error: P ends {'result','not_wanted'}
%% error: P ends {'result','pong'}
%% error: P.3 ends {'result','not_wanted'}
%% error: P.3 ends {'result','pong'}
%% error: P.3.2 ends {'result','not_wanted'}
%% error: P.3.2 ends {'result','pong'}
%% error: P.3.8 ends 'shutdown'
%% error: P.3.8 ends {'result','not_wanted'}
%% error: P.3.9 ends 'shutdown'
%% error: P.3.9 ends {'result','not_wanted'}
%% error: P.5 ends {'result','not_wanted'}
%% error: P.5 ends {'result','pong'}
-module(supervisor_ignores).
-export([main/0, start_link/1, init/1, handle_call/3, handle_cast/2]).

main() ->
    ignore = supervisor:start_link(?MODULE, none),
    {ok, Supervisor} = supervisor:start_link(?MODULE, supervisor),
    spawn_link(fun() -> register(wanted, self()), receive leave -> ok end end),
    [{worker, undefined, worker, _}] = supervisor:which_children(Supervisor),
    case supervisor:restart_child(Supervisor, worker) of
        {ok, undefined} -> exit({result, not_wanted});
        {ok, Pid} -> exit({result, gen_server:call(Pid, ping)})
    end.

start_link(Args) -> gen_server:start_link(?MODULE, Args, []).

init(none) -> ignore;
init(supervisor) -> {ok, {#{}, [#{id => worker, start => {?MODULE, start_link, [worker]}}]}};
init(worker) -> case whereis(wanted) of undefined -> ignore; Pid -> {ok, Pid} end.

handle_call(ping, _, Pid) -> Pid ! leave, {reply, pong, Pid}.

handle_cast(_, Pid) -> {noreply, Pid}.
