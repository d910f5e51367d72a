%% Timeouts with names: one is cancelled, one gets another content, and goes on where the state changes.
%% words: --after-timeout 5000
%% error: P ends {'result',[{'x','first','a'},{'y','first','a'}]}
%% error: P ends {'result',[{'x','first','a'},{'y','second','b'}]}
%% error: P ends {'result',[{'y','first','a'}]}
%% error: P ends {'result',[{'y','first','a'},{'x','first','done'}]}
%% error: P ends {'result',[{'y','second','b'}]}
%% error: P.1 ends {'result',[{'x','first','a'},{'y','first','a'}]}
%% error: P.1 ends {'result',[{'x','first','a'},{'y','second','b'}]}
%% error: P.1 ends {'result',[{'y','first','a'}]}
%% error: P.1 ends {'result',[{'y','first','a'},{'x','first','done'}]}
%% error: P.1 ends {'result',[{'y','second','b'}]}
-module(statem_named_timeouts).
-behaviour(gen_statem).
-export([main/0, init/1, callback_mode/0, handle_event/4]).

main() ->
    {ok, Pid} = gen_statem:start_link(?MODULE, [], []),
    gen_statem:cast(Pid, change),
    exit({result, gen_statem:call(Pid, wait)}).

callback_mode() -> handle_event_function.

init(_) -> {ok, a, [], [{{timeout, x}, 1, first}, {{timeout, y}, 2, first}]}.

handle_event(cast, change, a, Log) -> {next_state, b, Log, [{{timeout, x}, cancel}, {{timeout, y}, update, second}]};
handle_event(cast, change, done, _) -> keep_state_and_data;
handle_event({timeout, y}, Content, State, Log) -> {next_state, done, [{y, Content, State} | Log]};
handle_event({timeout, x}, Content, State, Log) -> {keep_state, [{x, Content, State} | Log]};
handle_event({call, From}, wait, done, Log) -> {keep_state_and_data, [{reply, From, lists:reverse(Log)}]};
handle_event({call, _}, wait, _, _) -> {keep_state_and_data, [postpone]}.
