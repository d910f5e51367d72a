%% A meeting of two: both are answered at once, and the machine ends. A third one may come too late, or be the second.
%% words: --after-timeout 5000
%% error: P ends {'result','noproc','three','two'}
%% error: P ends {'result','normal','three','two'}
%% error: P ends {'result','three','noproc','one'}
%% error: P ends {'result','three','normal','one'}
%% error: P ends {'result','two','one','noproc'}
%% error: P ends {'result','two','one','normal'}
-module(statem_replies).
-behaviour(gen_statem).
-export([main/0, init/1, callback_mode/0, handle_event/4]).

main() ->
    Main = self(),
    {ok, Pid} = gen_statem:start(?MODULE, [], []),
    [spawn(fun() -> Main ! {Who, meet(Pid, Who)} end) || Who <- [two, three]],
    exit({result, meet(Pid, one), receive {two, Two} -> Two end, receive {three, Three} -> Three end}).

meet(Pid, Who) ->
    try gen_statem:call(Pid, Who, infinity)
    catch exit:{Why, {gen_statem, call, [Pid, Who, infinity]}} -> Why
    end.

callback_mode() -> handle_event_function.

init(_) -> {ok, alone, none}.

handle_event({call, From}, Who, alone, none) -> {next_state, {waits, Who}, From};
handle_event({call, From}, Who, {waits, Other}, OtherFrom) ->
    {stop_and_reply, normal, [{reply, From, Other}, {reply, OtherFrom, Who}]}.
