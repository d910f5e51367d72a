%% A counter that processes share is read and written back by one of them: the addition of the other may be lost.
%% want: main ends {counted,1} or {counted,2}
%% depth: 24
%% error: P ends {'counted',1}
%% error: P ends {'counted',2}
-module(counter_read_back).
-export([main/0]).

main() ->
    C = counters:new(1, []),
    Me = self(),
    spawn(fun() -> counters:add(C, 1, 1), Me ! done end),
    spawn(fun() -> counters:put(C, 1, counters:get(C, 1) + 1), Me ! done end),
    [receive done -> ok end || _ <- [1, 2]],
    exit({counted, counters:get(C, 1)}).
