%% Each worker is watched; main gathers their ends in any order.
%% want: clean except for the worker that ends on purpose
%% depth: 16
%% error: P.1 ends 'odd'
%% error: P.3 ends 'odd'
-module(watch_all).
-export([main/0]).

main() ->
    Watched = [spawn_monitor(fun() -> work(N) end) || N <- [1, 2, 3]],
    Ends = lists:foldl(fun({P, R}, Sum) -> [receive {'DOWN', R, process, P, Why} -> Why end | Sum] end, [], Watched),
    [odd, normal, odd] = Ends.

work(N) when N rem 2 =:= 1 -> exit(odd);
work(_) -> ok.
