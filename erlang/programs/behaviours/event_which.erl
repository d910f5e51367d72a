%% Which handlers there are, while another process adds one and takes one out.
%% words: --after-timeout 5000
%% error: P ends {'result',[1]}
%% error: P ends {'result',[2]}
%% error: P ends {'result',[2,1]}
%% error: P.2 ends {'result',[1]}
%% error: P.2 ends {'result',[2]}
%% error: P.2 ends {'result',[2,1]}
%% error: P.9 ends 'noproc'
%% error: P.9 ends {'result',[1]}
%% error: P.9 ends {'result',[2,1]}
-module(event_which).
-behaviour(gen_event).
-export([main/0, init/1, handle_event/2, handle_call/2]).

main() ->
    {ok, Manager} = gen_event:start_link({local, manager}),
    ok = gen_event:add_handler(manager, {?MODULE, 1}, []),
    spawn(fun() ->
                  {error, refused} = gen_event:add_handler(manager, {?MODULE, 3}, {error, refused}),
                  ok = gen_event:add_handler(manager, {?MODULE, 2}, []),
                  gen_event:delete_handler(manager, {?MODULE, 1}, out)
          end),
    exit({result, [Id || {_, Id} <- gen_event:which_handlers(Manager)]}).

init({error, Why}) -> {error, Why};
init(S) -> {ok, S}.

handle_event(_, S) -> {ok, S}.

handle_call(_, S) -> {ok, S, S}.
