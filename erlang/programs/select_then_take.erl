%% Two workers select what is open and then take the first of it: both may take the same.
%% want: a worker ends {badmatch,[]} in some schedule, and main then waits for ever
%% depth: 20
%% error: P.3 ends {{'badmatch',[]},[]}
%% error: P.4 ends {{'badmatch',[]},[]}
%% error: deadlock of P
-module(select_then_take).
-export([main/0]).

main() ->
    T = ets:new(jobs, [public]),
    ets:insert(T, [{1, open}, {2, open}, {3, closed}]),
    Me = self(),
    [spawn(fun() -> Me ! {took, work(T)} end) || _ <- [1, 2]],
    [receive {took, K} -> K end || _ <- [1, 2]].

work(T) ->
    [First | _] = lists:sort(ets:select(T, [{{'$1', open}, [{'<', '$1', 3}], ['$1']}])),
    [{First, open}] = ets:take(T, First),
    First.
