%% A handler that is supervised goes when the process that added it ends; an event comes to it before that, or not.
%% words: --after-timeout 5000
%% error: P ends {'result',['event',{'stop','owner_leaves'}],[]}
%% error: P ends {'result',[{'stop','owner_leaves'}],[]}
%% error: P.2 ends {'result',['event',{'stop','owner_leaves'}],[]}
%% error: P.2 ends {'result',[{'stop','owner_leaves'}],[]}
%% error: P.4 ends 'owner_leaves'
-module(event_owner_ends).
-behaviour(gen_event).
-export([main/0, init/1, handle_event/2, handle_call/2, terminate/2]).

main() ->
    Main = self(),
    {ok, _} = gen_event:start_link({local, manager}),
    spawn(fun() -> ok = gen_event:add_sup_handler(manager, ?MODULE, Main), Main ! added, timer:sleep(1), exit(owner_leaves) end),
    receive added -> ok end,
    gen_event:notify(manager, event),
    exit({result, told(), gen_event:which_handlers(manager)}).

told() -> receive {ended, Why} -> [Why]; Event -> [Event | told()] end.

init(Main) -> {ok, Main}.

handle_event(Event, Main) -> Main ! Event, {ok, Main}.

handle_call(_, Main) -> {ok, ok, Main}.

terminate(Reason, Main) -> Main ! {ended, Reason}.
