%% A server keeps a log of its events, and tells each message to a function that was installed, before or after a cast.
%% words: --after-timeout 5000
%% error: P ends {'result',1,['in','out'],[1]}
%% error: P ends {'result',1,['in','out'],[1,2]}
%% error: P ends {'result',1,['in','out','in','noreply'],[1,2]}
%% error: P ends {'result',2,['in','noreply','in','out'],[1]}
%% error: P ends {'result',2,['in','noreply','in','out'],[1,2]}
%% error: P.1 ends {'result',1,['in','out'],[1]}
%% error: P.1 ends {'result',1,['in','out'],[1,2]}
%% error: P.1 ends {'result',1,['in','out','in','noreply'],[1,2]}
%% error: P.1 ends {'result',2,['in','noreply','in','out'],[1]}
%% error: P.1 ends {'result',2,['in','noreply','in','out'],[1,2]}
-module(server_debugged).
-behaviour(gen_server).
-export([main/0, init/1, handle_call/3, handle_cast/2]).

main() ->
    Main = self(),
    {ok, Pid} = gen_server:start_link(?MODULE, 0, [{debug, [log]}]),
    spawn(fun() -> gen_server:cast(Pid, add) end),
    Tell = fun(N, {in, _}, _) -> Main ! {message, N}, N + 1; (N, _, _) -> N end,
    ok = sys:install(Pid, {Tell, 1}),
    N = gen_server:call(Pid, add),
    {ok, Log} = sys:log(Pid, get),
    exit({result, N, [element(1, Event) || Event <- Log], told()}).

told() -> receive {message, N} -> [N | told()] after 0 -> [] end.

init(N) -> {ok, N}.

handle_call(add, _, N) -> {reply, N + 1, N + 1, hibernate}.

handle_cast(add, N) -> {noreply, N + 1, hibernate}.
