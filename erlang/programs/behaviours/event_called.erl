%% Calls of handlers: one that answers and goes, so that a second call of two finds none, and one that was never there.
%% words: --after-timeout 5000
%% error: P ends {'result',{'error','bad_module'},{'other','only'}}
%% error: P ends {'result',{'mine','only'},{'error','bad_module'}}
%% error: P.1 ends {'result',{'error','bad_module'},{'other','only'}}
%% error: P.1 ends {'result',{'mine','only'},{'error','bad_module'}}
-module(event_called).
-behaviour(gen_event).
-export([main/0, init/1, handle_event/2, handle_call/2]).

main() ->
    Main = self(),
    {ok, Manager} = gen_event:start_link(),
    ok = gen_event:add_handler(Manager, {?MODULE, once}, only),
    {error, bad_module} = gen_event:call(Manager, nobody, take),
    spawn(fun() -> Main ! {other, gen_event:call(Manager, {?MODULE, once}, {take, other})} end),
    Mine = gen_event:call(Manager, {?MODULE, once}, {take, mine}),
    exit({result, Mine, receive {other, Answer} -> Answer end}).

init(Thing) -> {ok, Thing}.

handle_event(_, Thing) -> {ok, Thing}.

handle_call({take, Who}, Thing) -> {remove_handler, {Who, Thing}}.
