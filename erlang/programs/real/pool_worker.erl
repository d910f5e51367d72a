-module(pool_worker).
-behaviour(gen_server).
-export([start_link/1, init/1, handle_call/3, handle_cast/2]).

start_link(Arguments) -> gen_server:start_link(?MODULE, Arguments, []).
init(Arguments) -> {ok, Arguments}.
handle_call(_, _, State) -> {reply, ok, State}.
handle_cast(_, State) -> {noreply, State}.
