%% ./explore examples/restarted.erl --after-timeout 5000
-module(restarted).
-behaviour(supervisor).
-export([main/0, init/1]).

%% A supervisor has one worker, which counts. Somebody lets it crash meanwhile.
main() ->
    {ok, _} = supervisor:start_link(?MODULE, none),
    spawn(fun() -> restarted_worker:crash() end),
    restarted_worker:add(),
    1 = restarted_worker:count().

init(none) ->
    Worker = #{id => worker, start => {restarted_worker, start_link, []}, shutdown => brutal_kill},
    {ok, {#{strategy => one_for_one}, [Worker]}}.
