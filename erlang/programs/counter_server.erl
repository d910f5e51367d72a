%% A gen_server that counts: a cast of one process and the call of another come in any order.
%% want: main ends {badmatch,0} where the call comes before the cast, with a timeout where the server is too slow, and is fine else
%% depth: 24
%% error: P ends {'timeout',{'gen_server','call',[P.1,'read']}}
%% error: P ends {{'badmatch',0},[]}
%% error: P.1 ends {'timeout',{'gen_server','call',[P.1,'read']}}
%% error: P.1 ends {{'badmatch',0},[]}
%% error: deadlock of P.1
-module(counter_server).
-behaviour(gen_server).
-export([main/0, init/1, handle_call/3, handle_cast/2]).

main() ->
    {ok, Pid} = gen_server:start_link(?MODULE, 0, []),
    Me = self(),
    spawn(fun() -> gen_server:cast(Pid, add), Me ! sent end),
    receive sent -> ok end,
    1 = gen_server:call(Pid, read).

init(N) -> {ok, N}.

handle_call(read, _From, N) -> {reply, N, N}.

handle_cast(add, N) -> {noreply, N + 1}.
