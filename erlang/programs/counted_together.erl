%% Words are counted by several processes, with a default where a word is new: no word is lost, as one step each.
%% want: clean
%% depth: 24
-module(counted_together).
-export([main/0]).

main() ->
    T = ets:new(words, [ordered_set, public]),
    Me = self(),
    [spawn(fun() -> count(T, Words), Me ! done end) || Words <- [[a, b], [b]]],
    [receive done -> ok end || _ <- [1, 2]],
    [{a, 1}, {b, 2}] = ets:tab2list(T).

count(T, Words) -> [ets:update_counter(T, W, 1, {W, 0}) || W <- Words].
