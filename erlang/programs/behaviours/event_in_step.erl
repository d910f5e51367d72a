%% What is notified in step was handled before the next line; what is only notified may come later, but it keeps its order.
%% words: --after-timeout 5000
%% error: P ends {'result',[],['one','two']}
%% error: P ends {'result',['one'],['two']}
%% error: P.2 ends {'result',[],['one','two']}
%% error: P.2 ends {'result',['one'],['two']}
-module(event_in_step).
-behaviour(gen_event).
-export([main/0, init/1, handle_event/2, handle_call/2]).

main() ->
    process_flag(trap_exit, true),
    {ok, Manager} = gen_event:start_link(),
    ok = gen_event:add_handler(Manager, ?MODULE, self()),
    ok = gen_event:notify(Manager, one),
    First = seen(),
    ok = gen_event:sync_notify(Manager, two),
    exit({result, First, seen()}).

seen() -> receive {handled, Event} -> [Event | seen()] after 0 -> [] end.

init(Main) -> {ok, Main}.

handle_event(Event, Main) -> Main ! {handled, Event}, {ok, Main}.

handle_call(_, Main) -> {ok, ok, Main}.
