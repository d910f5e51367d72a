%% A handler gives its place to another one at an event, with what it knows: a call finds the one or the other.
%% words: --after-timeout 5000
%% error: P ends {'result',[{'day',0},{'error','bad_module'}]}
%% error: P ends {'result',[{'day',0},{'night',11}]}
%% error: P ends {'result',[{'error','bad_module'},{'night',10}]}
%% error: P.1 ends {'result',[{'day',0},{'error','bad_module'}]}
%% error: P.1 ends {'result',[{'day',0},{'night',11}]}
%% error: P.1 ends {'result',[{'error','bad_module'},{'night',10}]}
-module(event_changes).
-behaviour(gen_event).
-export([main/0, init/1, handle_event/2, handle_call/2, terminate/2]).

main() ->
    {ok, Manager} = gen_event:start_link(),
    ok = gen_event:add_handler(Manager, {?MODULE, day}, {day, 0}),
    spawn(fun() -> gen_event:notify(Manager, change) end),
    exit({result, [gen_event:call(Manager, {?MODULE, Id}, who) || Id <- [day, night]]}).

init({{night, Asked}, {told, N}}) -> {ok, {night, Asked + N}};
init({day, N}) -> {ok, {day, N}}.

handle_event(change, {day, N} = S) -> {swap_handler, {say, N}, S, {?MODULE, night}, {night, 10}};
handle_event(change, S) -> {ok, S}.

handle_call(who, {Who, N}) -> {ok, {Who, N}, {Who, N + 1}}.

terminate({say, N}, {day, N}) -> {told, N}.
