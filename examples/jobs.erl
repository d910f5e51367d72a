%% ./explore examples/jobs.erl
-module(jobs).
-export([main/0]).

%% Jobs are funs in a list. Each runs in a process of its own.
main() ->
    Jobs = [fun() -> 1 + 1 end, fun() -> lists:sum([1, 2, 3]) end],
    [2, 6] = in_parallel(Jobs).

in_parallel(Jobs) ->
    Me = self(),
    [spawn(fun() -> Me ! {answer, Job()} end) || Job <- Jobs],
    [receive {answer, Answer} -> Answer end || _ <- Jobs].
