%% What is to be continued comes before each message that waits, after init and after a call.
%% words: --after-timeout 5000
%% error: P ends {'result',['told',1,2]}
%% error: P ends {'result',['told',1,2,'other']}
%% error: P ends {'result',['told','other',1,2]}
%% error: P.1 ends {'result',['told',1,2]}
%% error: P.1 ends {'result',['told',1,2,'other']}
%% error: P.1 ends {'result',['told','other',1,2]}
-module(server_continues).
-behaviour(gen_server).
-export([main/0, init/1, handle_call/3, handle_cast/2, handle_continue/2]).

main() ->
    {ok, Pid} = gen_server:start_link(?MODULE, self(), []),
    receive continued -> ok end,
    spawn(fun() -> gen_server:cast(Pid, other) end),
    began = gen_server:call(Pid, work),
    exit({result, gen_server:call(Pid, all)}).

init(Starter) -> {ok, [], {continue, {tell, Starter}}}.

handle_continue({tell, Starter}, []) ->
    Starter ! continued,
    {noreply, [told]};
handle_continue(Step, Log) when Step < 2 -> {noreply, [Step | Log], {continue, Step + 1}};
handle_continue(Step, Log) -> {noreply, [Step | Log]}.

handle_call(work, _, Log) -> {reply, began, Log, {continue, 1}};
handle_call(all, _, Log) -> {reply, lists:reverse(Log), Log}.

handle_cast(Item, Log) -> {noreply, [Item | Log]}.
