%% A handler takes itself out at the second event; who owns it is told that it ended well, before or after the last answer.
%% words: --after-timeout 5000
%% error: P ends {'result',1,'normal'}
%% error: P ends {'result',{'error','bad_module'},'normal'}
%% error: P.1 ends {'result',1,'normal'}
%% error: P.1 ends {'result',{'error','bad_module'},'normal'}
-module(event_leaves).
-behaviour(gen_event).
-export([main/0, init/1, handle_event/2, handle_call/2, handle_info/2]).

main() ->
    {ok, Manager} = gen_event:start_link(),
    ok = gen_event:add_sup_handler(Manager, ?MODULE, 2),
    spawn(fun() -> Manager ! down end),
    gen_event:notify(Manager, down),
    Called = gen_event:call(Manager, ?MODULE, left),
    receive {gen_event_EXIT, ?MODULE, Why} -> exit({result, Called, Why}) end.

init(Left) -> {ok, Left}.

handle_event(down, Left) -> less(Left).

handle_info(down, Left) -> less(Left).

less(1) -> remove_handler;
less(Left) -> {ok, Left - 1}.

handle_call(left, Left) -> {ok, Left, Left}.
