%% ./explore examples/door.erl --after-timeout 5000
-module(door).
-behaviour(gen_statem).
-export([main/0, callback_mode/0, init/1, locked/3, open/3]).

%% Two people press the code of one door, 1 and then 2, at the same time.
main() ->
    {ok, Door} = gen_statem:start_link(?MODULE, [1, 2], []),
    {_, Ref} = spawn_monitor(fun() -> press(Door) end),
    press(Door),
    receive {'DOWN', Ref, process, _, _} -> ok end,
    State = gen_statem:call(Door, state),
    gen_statem:stop(Door),
    open = State.

press(Door) -> [gen_statem:cast(Door, {press, Digit}) || Digit <- [1, 2]].

callback_mode() -> state_functions.

%% Data is the code, and what of it is still to come.
init(Code) -> {ok, locked, {Code, Code}}.

locked(cast, {press, Digit}, {Code, [Digit]}) -> {next_state, open, {Code, Code}};
locked(cast, {press, Digit}, {Code, [Digit | Rest]}) -> {keep_state, {Code, Rest}};
locked(cast, {press, _}, {Code, _}) -> {keep_state, {Code, Code}};
locked({call, From}, state, _) -> {keep_state_and_data, {reply, From, locked}}.

open(cast, {press, _}, _) -> keep_state_and_data;
open({call, From}, state, _) -> {keep_state_and_data, {reply, From, open}}.
