%% State enter calls: each change of the state tells the log, the first state and a repeated one too.
%% words: --after-timeout 5000
%% error: P ends {'result',[{'a','a'},{'a','a'},{'a','b'}]}
%% error: P ends {'result',[{'a','a'},{'a','b'}]}
%% error: P ends {'result',[{'a','a'},{'a','b'},{'b','b'}]}
%% error: P.1 ends {'result',[{'a','a'},{'a','a'},{'a','b'}]}
%% error: P.1 ends {'result',[{'a','a'},{'a','b'}]}
%% error: P.1 ends {'result',[{'a','a'},{'a','b'},{'b','b'}]}
-module(statem_enter).
-behaviour(gen_statem).
-export([main/0, init/1, callback_mode/0, handle_event/4]).

main() ->
    {ok, Pid} = gen_statem:start_link(?MODULE, [], []),
    spawn(fun() -> gen_statem:cast(Pid, again) end),
    gen_statem:cast(Pid, {go, b}),
    gen_statem:cast(Pid, {go, b}),
    exit({result, gen_statem:call(Pid, log)}).

callback_mode() -> [handle_event_function, state_enter].

init(Log) -> {ok, a, Log}.

handle_event(enter, Old, State, Log) -> {keep_state, [{Old, State} | Log]};
handle_event(cast, {go, State}, _, Log) -> {next_state, State, Log};
handle_event(cast, again, _, Log) -> {repeat_state, Log};
handle_event({call, From}, log, _, Log) -> {keep_state_and_data, [{reply, From, lists:reverse(Log)}]}.
