%% Each of two handlers is for the first event that comes to it, and sleeps then; the newer one is asked first.
%% words: --after-timeout 5000
%% error: P ends {'result',[{'new','one'},{'old','one'}]}
%% error: P ends {'result',[{'new','two'},{'old','two'}]}
%% error: P.1 ends {'result',[{'new','one'},{'old','one'}]}
%% error: P.1 ends {'result',[{'new','two'},{'old','two'}]}
%% error: P.11 ends 'noproc'
%% error: P.11 ends {'result',[{'new','two'},{'old','two'}]}
%% error: P.12 ends 'noproc'
%% error: P.12 ends {'result',[{'new','one'},{'old','one'}]}
-module(event_first_wins).
-behaviour(gen_event).
-export([main/0, init/1, handle_event/2, handle_call/2, handle_info/2]).

main() ->
    {ok, Manager} = gen_event:start_link(),
    [ok = gen_event:add_handler(Manager, {?MODULE, Id}, {Id, self()}) || Id <- [old, new]],
    [spawn(fun() -> gen_event:sync_notify(Manager, Event) end) || Event <- [one, two]],
    exit({result, [receive {taken, Id, Event} -> {Id, Event} end || _ <- [first, second]]}).

init(S) -> {ok, S}.

handle_event(Event, {Id, Main}) ->
    Main ! {taken, Id, Event},
    {ok, done, hibernate};
handle_event(_, done) -> {ok, done}.

handle_info(_, S) -> {ok, S}.

handle_call(_, S) -> {ok, S, S}.
