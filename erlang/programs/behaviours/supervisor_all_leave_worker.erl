-module(supervisor_all_leave_worker).
-behaviour(gen_server).
-export([start_link/0, leave/1, init/1, handle_call/3, handle_cast/2]).

start_link() -> gen_server:start_link(?MODULE, [], []).

leave(Pid) -> gen_server:cast(Pid, leave).

init(S) -> {ok, S}.

handle_call(_, _, S) -> {reply, ok, S}.

handle_cast(leave, S) -> {stop, normal, S}.
