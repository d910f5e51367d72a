%% A cast of one process and a message of another come in any order, and before or after the call.
%% words: --after-timeout 5000
%% error: P ends {'result',[]}
%% error: P ends {'result',[{'cast','one'}]}
%% error: P ends {'result',[{'cast','one'},{'info','two'}]}
%% error: P ends {'result',[{'info','two'}]}
%% error: P ends {'result',[{'info','two'},{'cast','one'}]}
%% error: P.2 ends {'result',[]}
%% error: P.2 ends {'result',[{'cast','one'}]}
%% error: P.2 ends {'result',[{'cast','one'},{'info','two'}]}
%% error: P.2 ends {'result',[{'info','two'}]}
%% error: P.2 ends {'result',[{'info','two'},{'cast','one'}]}
-module(server_cast_and_info).
-behaviour(gen_server).
-export([main/0, init/1, handle_call/3, handle_cast/2, handle_info/2]).

main() ->
    {ok, Pid} = gen_server:start_link({local, log}, ?MODULE, [], []),
    spawn(fun() -> ok = gen_server:cast(log, one) end),
    spawn(fun() -> Pid ! two end),
    exit({result, gen_server:call(log, all)}).

init(Log) -> {ok, Log}.

handle_call(all, _, Log) -> {reply, lists:reverse(Log), Log, hibernate}.

handle_cast(Item, Log) -> {noreply, [{cast, Item} | Log], hibernate}.

handle_info(Item, Log) -> {noreply, [{info, Item} | Log]}.
