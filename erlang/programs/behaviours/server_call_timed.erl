%% A call with a time: the answer may come too late, and the server has done the work all the same.
%% words: --after-timeout 5000
%% error: P ends {'result',1,1}
%% error: P ends {'result','too_late',1}
%% error: P.1 ends {'result',1,1}
%% error: P.1 ends {'result','too_late',1}
-module(server_call_timed).
-behaviour(gen_server).
-export([main/0, init/1, handle_call/3, handle_cast/2]).

main() ->
    {ok, Pid} = gen_server:start_link(?MODULE, 0, []),
    First = try gen_server:call(Pid, add, 2) catch exit:{timeout, {gen_server, call, [Pid, add, 2]}} -> too_late end,
    exit({result, First, gen_server:call(Pid, get)}).

init(N) -> {ok, N}.

handle_call(add, _, N) ->
    timer:sleep(1),
    {reply, N + 1, N + 1};
handle_call(get, _, N) -> {reply, N, N}.

handle_cast(_, N) -> {noreply, N}.
