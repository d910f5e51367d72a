%% Events of two processes come to each handler in one order, which a call of the handlers shows.
%% words: --after-timeout 5000
%% error: P ends {'result',[['one','two'],['one','two']]}
%% error: P ends {'result',[['two'],['two']]}
%% error: P ends {'result',[['two'],['two','one']]}
%% error: P ends {'result',[['two','one'],['two','one']]}
%% error: P.1 ends {'result',[['one','two'],['one','two']]}
%% error: P.1 ends {'result',[['two'],['two']]}
%% error: P.1 ends {'result',[['two'],['two','one']]}
%% error: P.1 ends {'result',[['two','one'],['two','one']]}
-module(event_notified).
-behaviour(gen_event).
-export([main/0, init/1, handle_event/2, handle_call/2]).

main() ->
    {ok, Manager} = gen_event:start_link(),
    [ok = gen_event:add_handler(Manager, {?MODULE, Id}, []) || Id <- [a, b]],
    spawn(fun() -> gen_event:notify(Manager, one) end),
    gen_event:notify(Manager, two),
    exit({result, [gen_event:call(Manager, {?MODULE, Id}, events) || Id <- [a, b]]}).

init(Events) -> {ok, Events}.

handle_event(Event, Events) -> {ok, Events ++ [Event]}.

handle_call(events, Events) -> {ok, Events, Events}.
