%% A manager is stopped while another process calls a handler: the handler ends first, and the caller may find nobody.
%% words: --after-timeout 5000
%% error: P ends {'result','stop','answer'}
%% error: P ends {'result','stop',{'exit','noproc'}}
%% error: P ends {'result','stop',{'exit','normal'}}
-module(event_stopped).
-behaviour(gen_event).
-export([main/0, init/1, handle_event/2, handle_call/2, terminate/2]).

main() ->
    Main = self(),
    {ok, Manager} = gen_event:start(),
    ok = gen_event:add_handler(Manager, ?MODULE, Main),
    spawn(fun() -> Main ! {called, called(Manager)} end),
    ok = gen_event:stop(Manager),
    Why = receive {ended, Reason} -> Reason end,
    receive {called, Answer} -> exit({result, Why, Answer}) end.

called(Manager) ->
    try gen_event:call(Manager, ?MODULE, ask)
    catch exit:{Why, {gen_event, call, [Manager, ?MODULE, ask]}} -> {exit, Why};
          exit:Why -> {exit_alone, Why}
    end.

init(Main) -> {ok, Main}.

handle_event(_, Main) -> {ok, Main}.

handle_call(ask, Main) -> {ok, answer, Main}.

terminate(Reason, Main) -> Main ! {ended, Reason}.
