%% A parallel map that knows whose answer is whose.
%% want: clean
%% depth: 20
-module(parallel_map).
-export([main/0]).

main() ->
    [1, 4, 9] = map(fun(X) -> X * X end, lists:seq(1, 3)).

map(F, L) ->
    Me = self(),
    Refs = [begin R = make_ref(), spawn(fun() -> Me ! {R, F(X)} end), R end || X <- L],
    [receive {R, Y} -> Y end || R <- Refs].
