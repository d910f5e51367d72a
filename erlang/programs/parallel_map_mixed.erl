%% A parallel map that takes the answers as they come.
%% want: main ends {badmatch,[4,1]} in some schedule
%% depth: 12
%% error: P ends {{'badmatch',[4,1]},[]}
-module(parallel_map_mixed).
-export([main/0]).

main() ->
    [1, 4] = map(fun(X) -> X * X end, [1, 2]).

map(F, L) ->
    Me = self(),
    lists:foreach(fun(X) -> spawn(fun() -> Me ! {answer, F(X)} end) end, L),
    [receive {answer, Y} -> Y end || _ <- L].
