%% Events that a state machine gives to itself come before those that wait, in their order.
%% words: --after-timeout 5000
%% error: P ends {'result',['start','by_itself','other','work','one','two']}
%% error: P ends {'result',['start','by_itself','work','one','two']}
%% error: P ends {'result',['start','by_itself','work','one','two','other']}
%% error: P.1 ends {'result',['start','by_itself','other','work','one','two']}
%% error: P.1 ends {'result',['start','by_itself','work','one','two']}
%% error: P.1 ends {'result',['start','by_itself','work','one','two','other']}
-module(statem_internal).
-behaviour(gen_statem).
-export([main/0, init/1, callback_mode/0, handle_event/4]).

main() ->
    {ok, Pid} = gen_statem:start_link(?MODULE, [], []),
    spawn(fun() -> gen_statem:cast(Pid, other) end),
    gen_statem:cast(Pid, work),
    exit({result, gen_statem:call(Pid, log)}).

callback_mode() -> handle_event_function.

init(_) -> {ok, on, [], [{next_event, internal, start}, {next_event, cast, by_itself}]}.

handle_event(cast, work, on, Log) ->
    {next_state, busy, [work | Log], [{next_event, internal, one}, {next_event, info, two}]};
handle_event(info, two, busy, Log) -> {next_state, on, [two | Log]};
handle_event({call, From}, log, on, Log) -> {stop_and_reply, normal, {reply, From, lists:reverse(Log)}};
handle_event(_, Event, _, Log) -> {keep_state, [Event | Log]}.
