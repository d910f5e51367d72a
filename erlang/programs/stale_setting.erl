%% A worker keeps a setting in its dictionary, so that it reads the table once; then it goes on with the old one.
%% want: main ends {stale,10} where the worker reads the table before it is written again
%% depth: 19
%% error: P ends {'stale',10}
-module(stale_setting).
-export([main/0, work/2]).

main() ->
    ets:new(settings, [named_table]),
    ets:insert(settings, {limit, 10}),
    Worker = spawn(?MODULE, work, [self(), 2]),
    Worker ! ask,
    ets:insert(settings, {limit, 20}),
    Worker ! ask,
    receive {limit, _} -> ok end,
    receive
        {limit, 20} -> ok;
        {limit, Old} -> exit({stale, Old})
    end.

work(_, 0) -> ok;
work(Boss, N) ->
    receive ask -> Boss ! {limit, limit()} end,
    work(Boss, N - 1).

limit() ->
    case get(limit) of
        undefined ->
            [{limit, Limit}] = ets:lookup(settings, limit),
            put(limit, Limit),
            Limit;
        Limit -> Limit
    end.
