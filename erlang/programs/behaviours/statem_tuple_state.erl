%% The state is a tuple with a number: only where it really changes is a postponed event taken up.
%% words: --after-timeout 5000
%% error: P ends {'result',{2,[1,1]}}
%% error: P.1 ends {'result',{2,[1,1]}}
-module(statem_tuple_state).
-behaviour(gen_statem).
-export([main/0, init/1, callback_mode/0, handle_event/4]).

main() ->
    {ok, Pid} = gen_statem:start_link(?MODULE, 2, []),
    spawn(fun() -> gen_statem:cast(Pid, {add, 1}) end),
    gen_statem:cast(Pid, {add, 1}),
    exit({result, gen_statem:call(Pid, when_full)}).

callback_mode() -> handle_event_function.

init(Most) -> {ok, {filling, 0}, #{most => Most, sum => []}}.

handle_event(cast, {add, N}, {filling, Level}, #{most := Most} = Data) when Level + N >= Most ->
    {next_state, {full, Level + N}, Data#{sum := [N | map_get(sum, Data)]}};
handle_event(cast, {add, N}, {filling, Level}, #{sum := Sum} = Data) -> {next_state, {filling, Level + N}, Data#{sum := [N | Sum]}};
handle_event({call, From}, when_full, {full, Level}, #{sum := Sum}) -> {keep_state_and_data, [{reply, From, {Level, Sum}}]};
handle_event({call, _}, when_full, _, _) -> {keep_state_and_data, [postpone]}.
