%% A box for one thing: who takes from the empty one, or puts into the full one, is postponed until the state changes.
%% words: --after-timeout 5000
%% error: P ends {'result',['one','two']}
%% error: P ends {'result',['two','one']}
%% error: P.1 ends {'result',['one','two']}
%% error: P.1 ends {'result',['two','one']}
-module(statem_postponed).
-behaviour(gen_statem).
-export([main/0, init/1, callback_mode/0, empty/3, full/3]).

main() ->
    {ok, Box} = gen_statem:start_link(?MODULE, [], []),
    [spawn(fun() -> ok = gen_statem:call(Box, {put, Thing}, infinity) end) || Thing <- [one, two]],
    exit({result, [gen_statem:call(Box, take) || _ <- [first, second]]}).

callback_mode() -> state_functions.

init(_) -> {ok, empty, none}.

empty({call, From}, {put, Thing}, none) -> {next_state, full, Thing, [{reply, From, ok}]};
empty({call, _}, take, none) -> {keep_state_and_data, [postpone]}.

full({call, From}, take, Thing) -> {next_state, empty, none, {reply, From, Thing}};
full({call, _}, {put, _}, _) -> {keep_state_and_data, postpone}.
