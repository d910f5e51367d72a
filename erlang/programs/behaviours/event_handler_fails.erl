%% A handler that fails is taken out, who added it with supervision is told, and the other handler goes on.
%% words: --after-timeout 5000
%% error: P ends {'result','weak','strained'}
%% error: P ends {'result',{'error','bad_module'},'strained'}
%% error: P.1 ends {'result','weak','strained'}
%% error: P.1 ends {'result',{'error','bad_module'},'strained'}
-module(event_handler_fails).
-behaviour(gen_event).
-export([main/0, init/1, handle_event/2, handle_call/2]).

main() ->
    {ok, Manager} = gen_event:start_link(),
    ok = gen_event:add_sup_handler(Manager, {?MODULE, weak}, weak),
    ok = gen_event:add_handler(Manager, {?MODULE, strong}, strong),
    spawn(fun() -> gen_event:notify(Manager, strain) end),
    Called = gen_event:call(Manager, {?MODULE, weak}, ask),
    receive
        {gen_event_EXIT, {?MODULE, weak}, {'EXIT', {too_much, _}}} -> ok
    end,
    exit({result, Called, gen_event:call(Manager, {?MODULE, strong}, ask)}).

init(Who) -> {ok, Who}.

handle_event(strain, weak) -> error(too_much);
handle_event(strain, strong) -> {ok, strained}.

handle_call(ask, Who) -> {ok, Who, Who}.
