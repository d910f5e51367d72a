%% A state has a time, which goes with the state: the door closes by itself, unless somebody closes it first.
%% words: --after-timeout 5000
%% error: P ends {'result','by_itself'}
%% error: P ends {'result','somebody'}
%% error: P.1 ends {'result','by_itself'}
%% error: P.1 ends {'result','somebody'}
-module(statem_state_timeout).
-behaviour(gen_statem).
-export([main/0, init/1, callback_mode/0, closed/3, open/3]).

main() ->
    {ok, Door} = gen_statem:start_link(?MODULE, [], []),
    ok = gen_statem:call(Door, open),
    timer:sleep(1),
    gen_statem:cast(Door, close),
    exit({result, gen_statem:call(Door, who)}).

callback_mode() -> state_functions.

init(_) -> {ok, closed, nobody}.

closed({call, From}, open, Who) -> {next_state, open, Who, [{reply, From, ok}, {state_timeout, 2, close}]};
closed({call, From}, who, Who) -> {keep_state_and_data, [{reply, From, Who}]};
closed(cast, close, _) -> keep_state_and_data.

open(cast, close, _) -> {next_state, closed, somebody};
open(state_timeout, close, _) -> {next_state, closed, by_itself}.
