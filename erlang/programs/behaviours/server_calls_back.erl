%% Two servers that call each other: where each waits for the other, both wait for ever.
%% words: --after-timeout 5000
%% error: P ends {'result',2}
%% error: P.1 ends {'result',2}
%% error: P.3 ends {'noproc',{'gen_server','call',[P.1,'one']}}
%% error: P.3 ends {'result',2}
%% error: P.3 ends {{'result',2},{'gen_server','call',[P.1,'one']}}
%% error: P.9 ends {'noproc',{'gen_server','call',[P.3,'sum']}}
%% error: P.9 ends {{'noproc',{'gen_server','call',[P.1,'one']}},{'gen_server','call',[P.3,'sum']}}
%% error: P.9 ends {{'result',2},{'gen_server','call',[P.3,'sum']}}
%% error: P.9 ends {{{'result',2},{'gen_server','call',[P.1,'one']}},{'gen_server','call',[P.3,'sum']}}
%% error: deadlock of P P.1 P.3 P.9
-module(server_calls_back).
-behaviour(gen_server).
-export([main/0, init/1, handle_call/3, handle_cast/2]).

main() ->
    {ok, A} = gen_server:start_link(?MODULE, none, []),
    {ok, B} = gen_server:start_link(?MODULE, A, []),
    ok = gen_server:call(A, {other, B}),
    spawn(fun() -> gen_server:call(B, sum) end),
    exit({result, gen_server:call(A, sum)}).

init(Other) -> {ok, Other}.

handle_call({other, Pid}, _, none) -> {reply, ok, Pid};
handle_call(sum, _, Other) -> {reply, 1 + gen_server:call(Other, one), Other};
handle_call(one, _, Other) -> {reply, 1, Other}.

handle_cast(_, Other) -> {noreply, Other}.
