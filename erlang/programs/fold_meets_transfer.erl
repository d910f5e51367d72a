%% A fold looks at one key after the other. A transfer may come between, and then the sum is wrong at every moment.
%% want: main ends {bad_sum,9} or {bad_sum,11} in some schedules; the table goes with it, which the other process may meet
%% depth: 20
%% error: P ends {'bad_sum',9}
%% error: P ends {'bad_sum',11}
%% error: P.3 ends {'badarg',[]}
-module(fold_meets_transfer).
-export([main/0]).

main() ->
    T = ets:new(accounts, [ordered_set, public]),
    ets:insert(T, [{a, 5}, {b, 5}]),
    spawn(fun() -> ets:update_counter(T, a, 1), ets:update_counter(T, b, -1) end),
    case ets:foldl(fun({_, N}, Sum) -> N + Sum end, 0, T) of
        10 -> ok;
        Sum -> exit({bad_sum, Sum})
    end.
