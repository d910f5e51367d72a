%% One stops a server that another calls.
%% want: the caller ends {noproc,..}, {normal,..} or {timeout,..} in some schedule
%% depth: 24
%% error: P.4 ends {'call','noproc'}
%% error: P.4 ends {'call','normal'}
%% error: P.4 ends {'call','timeout'}
-module(server_stopped).
-behaviour(gen_server).
-export([main/0, init/1, handle_call/3, handle_cast/2]).

main() ->
    {ok, Pid} = gen_server:start(?MODULE, [], []),
    spawn(fun() -> try pong = gen_server:call(Pid, ping) catch exit:{Why, _} -> exit({call, Why}) end end),
    gen_server:cast(Pid, stop).

init([]) -> {ok, none}.

handle_call(ping, _From, S) -> {reply, pong, S}.

handle_cast(stop, S) -> {stop, normal, S}.
