%% A door with a code, a function for each state: who presses a button in between makes the code wrong.
%% words: --after-timeout 5000
%% error: P ends {'result','open'}
%% error: P ends {'result',{'locked',[1,2]}}
%% error: P.1 ends {'result','open'}
%% error: P.1 ends {'result',{'locked',[1,2]}}
-module(statem_door).
-behaviour(gen_statem).
-export([main/0, init/1, callback_mode/0, locked/3, open/3]).

main() ->
    {ok, Door} = gen_statem:start_link(?MODULE, [1, 2], []),
    spawn(fun() -> gen_statem:cast(Door, {button, 2}) end),
    gen_statem:cast(Door, {button, 1}),
    gen_statem:cast(Door, {button, 2}),
    exit({result, gen_statem:call(Door, state)}).

callback_mode() -> state_functions.

init(Code) -> {ok, locked, {Code, Code}}.

locked(cast, {button, Digit}, {Code, [Digit]}) -> {next_state, open, {Code, Code}};
locked(cast, {button, Digit}, {Code, [Digit | Rest]}) -> {keep_state, {Code, Rest}};
locked(cast, {button, _}, {Code, _}) -> {keep_state, {Code, Code}};
locked({call, From}, state, {_, Rest}) -> {keep_state_and_data, {reply, From, {locked, Rest}}}.

open(cast, {button, _}, Data) -> {next_state, locked, Data};
open({call, From}, state, _) -> {keep_state_and_data, [{reply, From, open}]}.
