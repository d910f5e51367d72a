%% A server ends by what its handler gives; who calls it sees that reason, or that it is gone, and who watches it the reason.
%% words: --after-timeout 5000
%% error: P ends {'result','noproc','normal'}
%% error: P ends {'result','noproc',{'bad_return_value','odd'}}
%% error: P ends {'result','normal','normal'}
%% error: P ends {'result','pong','normal'}
%% error: P ends {'result','pong',{'bad_return_value','odd'}}
%% error: P ends {'result',{'bad_return_value','odd'},{'bad_return_value','odd'}}
%% error: P.1 ends {'bad_return_value','odd'}
-module(server_bad_return).
-behaviour(gen_server).
-export([main/0, init/1, handle_call/3, handle_cast/2, handle_info/2]).

main() ->
    {ok, Pid} = gen_server:start(?MODULE, [], []),
    Watch = monitor(process, Pid),
    spawn(fun() -> Pid ! odd end),
    spawn(fun() -> gen_server:cast(Pid, leave) end),
    Called = try gen_server:call(Pid, ping) catch exit:{Why, {gen_server, call, [Pid, ping]}} -> Why end,
    receive {'DOWN', Watch, process, Pid, Reason} -> exit({result, Called, Reason}) end.

init(S) -> {ok, S}.

handle_call(ping, _, S) -> {reply, pong, S}.

handle_cast(leave, S) -> {stop, normal, S}.

handle_info(odd, _) -> odd.
