-module(tree_worker).
-behaviour(gen_server).
-export([start_link/0, init/1, handle_call/3, handle_cast/2]).

start_link() -> gen_server:start_link({local, ?MODULE}, ?MODULE, 0, []).
init(Count) -> {ok, Count}.
handle_call(count, _, Count) -> {reply, Count, Count + 1}.
handle_cast(crash, _) -> exit(crashed).
