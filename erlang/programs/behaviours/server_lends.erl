%% A server lends one thing: who has to wait is answered later, by a reply out of another's request, or when the holder ends.
%% words: --after-timeout 5000
%% error: P ends {'result','thing','false'}
%% error: P ends {'result','thing','true'}
%% error: P.1 ends {'result','thing','false'}
%% error: P.1 ends {'result','thing','true'}
%% error: P.3 ends {'noproc',{'gen_server','call',[P.1,'lend']}}
%% error: P.3 ends {{'result','thing','false'},{'gen_server','call',[P.1,'lend']}}
%% error: P.3 ends {{'result','thing','true'},{'gen_server','call',[P.1,'lend']}}
-module(server_lends).
-behaviour(gen_server).
-export([main/0, init/1, handle_call/3, handle_cast/2, handle_info/2]).

main() ->
    Main = self(),
    {ok, Pid} = gen_server:start_link(?MODULE, free, []),
    spawn(fun() -> thing = gen_server:call(Pid, lend) end),
    thing = gen_server:call(Pid, lend),
    Waits = spawn(fun() -> Main ! {got, gen_server:call(Pid, lend)} end),
    gen_server:cast(Pid, {back, Main}),
    receive {got, Thing} -> exit({result, Thing, is_process_alive(Waits)}) end.

init(free) -> {ok, {free, []}}.

handle_call(lend, {Who, _}, {free, []}) -> {reply, thing, {{Who, monitor(process, Who)}, []}};
handle_call(lend, From, {Holder, Waiting}) -> {noreply, {Holder, Waiting ++ [From]}}.

handle_cast({back, Who}, {{Who, Watch}, Waiting}) ->
    demonitor(Watch, [flush]),
    {noreply, next(Waiting)};
handle_cast({back, _}, S) -> {noreply, S}.

handle_info({'DOWN', Watch, process, _, _}, {{_, Watch}, Waiting}) -> {noreply, next(Waiting)}.

next([]) -> {free, []};
next([{Who, _} = From | Waiting]) ->
    gen_server:reply(From, thing),
    {{Who, monitor(process, Who)}, Waiting}.
