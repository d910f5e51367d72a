%% A server that nobody asks for some time ends; a call may find it, or find it gone, or see it end.
%% words: --after-timeout 5000
%% error: P ends {'result','noproc','noproc'}
%% error: P ends {'result','noproc',{'shutdown','idle'}}
%% error: P ends {'result','pong',{'shutdown','idle'}}
%% error: P ends {'result',{'shutdown','idle'},{'shutdown','idle'}}
%% error: P.2 ends {'shutdown','idle'}
-module(server_idle).
-behaviour(gen_server).
-export([main/0, init/1, handle_call/3, handle_cast/2, handle_info/2]).

main() ->
    {ok, Pid} = gen_server:start({local, idle}, ?MODULE, [], []),
    Watch = monitor(process, Pid),
    timer:sleep(2),
    Answer = try gen_server:call(idle, ping) catch exit:{Why, _} -> Why end,
    receive {'DOWN', Watch, process, Pid, Reason} -> exit({result, Answer, Reason}) end.

init(S) -> {ok, S, 3}.

handle_call(ping, _, S) -> {reply, pong, S, 1}.

handle_cast(_, S) -> {noreply, S}.

handle_info(timeout, S) -> {stop, {shutdown, idle}, S}.
