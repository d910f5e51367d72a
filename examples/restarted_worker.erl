-module(restarted_worker).
-behaviour(gen_server).
-export([start_link/0, add/0, count/0, crash/0, init/1, handle_call/3, handle_cast/2]).

start_link() -> gen_server:start_link({local, ?MODULE}, ?MODULE, 0, []).
add() -> gen_server:cast(?MODULE, add).
count() -> gen_server:call(?MODULE, count).
crash() -> gen_server:cast(?MODULE, crash).

init(Count) -> {ok, Count}.
handle_call(count, _, Count) -> {reply, Count, Count}.
handle_cast(add, Count) -> {noreply, Count + 1};
handle_cast(crash, _) -> exit(crashed).
