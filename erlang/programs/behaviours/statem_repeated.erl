%% Only a state that is repeated, or another one, takes up what was postponed: one that is kept does not.
%% words: --after-timeout 5000
%% error: P ends {'result',1}
%% error: P ends {'result',2}
%% error: P ends {'result',13}
%% error: P.1 ends {'result',1}
%% error: P.1 ends {'result',2}
%% error: P.1 ends {'result',13}
-module(statem_repeated).
-behaviour(gen_statem).
-export([main/0, init/1, callback_mode/0, on/3]).

main() ->
    {ok, Pid} = gen_statem:start_link(?MODULE, 0, []),
    spawn(fun() -> Pid ! repeat end),
    gen_statem:cast(Pid, {after_at_least, 1}),
    Pid ! keep,
    exit({result, gen_statem:call(Pid, count)}).

callback_mode() -> [state_functions, state_enter].

init(N) -> {ok, on, N}.

on(enter, _, N) -> {keep_state, N + 1};
on(info, keep, N) -> {keep_state, N};
on(info, repeat, _) -> repeat_state_and_data;
on(cast, {after_at_least, M}, N) when N > M -> {repeat_state, N + 10};
on(cast, {after_at_least, _}, _) -> {keep_state_and_data, [postpone]};
on({call, From}, count, N) -> {keep_state_and_data, [{reply, From, N}, hibernate]}.
