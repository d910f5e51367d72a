%% The state of a server is read and replaced from outside; while it is suspended a cast waits.
%% words: --after-timeout 5000
%% error: P ends {'result',1,11}
%% error: P ends {'result',1,22}
%% error: P.1 ends {'result',1,11}
%% error: P.1 ends {'result',1,22}
-module(server_looked_into).
-behaviour(gen_server).
-export([main/0, init/1, handle_call/3, handle_cast/2]).

main() ->
    {ok, Pid} = gen_server:start_link(?MODULE, 1, []),
    ok = sys:suspend(Pid),
    spawn(fun() -> gen_server:cast(Pid, double) end),
    Before = sys:get_state(Pid),
    11 = sys:replace_state(Pid, fun(N) -> N + 10 end),
    ok = sys:resume(Pid),
    exit({result, Before, gen_server:call(Pid, get)}).

init(N) -> {ok, N}.

handle_call(get, _, N) -> {reply, N, N}.

handle_cast(double, N) -> {noreply, 2 * N}.
