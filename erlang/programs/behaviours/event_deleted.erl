%% Two delete one handler: one gets what its end gives, and the other is told that it is not there.
%% words: --after-timeout 5000
%% error: P ends {'result',{'error','module_not_found'},{'other',0}}
%% error: P ends {'result',{'error','module_not_found'},{'other',1}}
%% error: P ends {'result',{'mine',1},{'error','module_not_found'}}
%% error: P.1 ends {'result',{'error','module_not_found'},{'other',0}}
%% error: P.1 ends {'result',{'error','module_not_found'},{'other',1}}
%% error: P.1 ends {'result',{'mine',1},{'error','module_not_found'}}
-module(event_deleted).
-behaviour(gen_event).
-export([main/0, init/1, handle_event/2, handle_call/2, terminate/2]).

main() ->
    Main = self(),
    {ok, Manager} = gen_event:start_link(),
    ok = gen_event:add_handler(Manager, ?MODULE, 0),
    spawn(fun() -> Main ! {other, gen_event:delete_handler(Manager, ?MODULE, other)} end),
    gen_event:notify(Manager, add),
    Mine = gen_event:delete_handler(Manager, ?MODULE, mine),
    exit({result, Mine, receive {other, Others} -> Others end}).

init(N) -> {ok, N}.

handle_event(add, N) -> {ok, N + 1}.

handle_call(_, N) -> {ok, N, N}.

terminate(Who, N) -> {Who, N}.
