%% A handler is swapped for another one, which gets what the end of the first gives; no event is lost, wherever it comes.
%% words: --after-timeout 5000
%% error: P ends {'result',['new','old'],'true'}
%% error: P ends {'result',['new','old',{'old','event'}],'true'}
%% error: P ends {'result',['new',{'new','event'},'old'],'true'}
%% error: P.1 ends {'result',['new','old'],'true'}
%% error: P.1 ends {'result',['new','old',{'old','event'}],'true'}
%% error: P.1 ends {'result',['new',{'new','event'},'old'],'true'}
-module(event_swapped).
-behaviour(gen_event).
-export([main/0, init/1, handle_event/2, handle_call/2, terminate/2]).

main() ->
    {ok, Manager} = gen_event:start_link(),
    ok = gen_event:add_handler(Manager, {?MODULE, old}, old),
    spawn(fun() -> gen_event:notify(Manager, event) end),
    ok = gen_event:swap_handler(Manager, {{?MODULE, old}, swapped}, {{?MODULE, new}, new}),
    exit({result, gen_event:call(Manager, {?MODULE, new}, all), gen_event:which_handlers(Manager) =:= [{?MODULE, new}]}).

init({new, {was, Old}}) -> {ok, [new | Old]};
init(old) -> {ok, [old]}.

handle_event(Event, [Who | _] = Log) -> {ok, [Who, {Who, Event} | tl(Log)]}.

handle_call(all, Log) -> {ok, Log, Log}.

terminate(swapped, Log) -> {was, Log}.
