%% ./explore examples/counter.erl
-module(counter).
-export([main/0]).

main() ->
    ets:new(hits, [named_table, public]),
    ets:insert(hits, {page, 0}),
    {_, Ref} = spawn_monitor(fun visit/0),
    visit(),
    receive {'DOWN', Ref, process, _, _} -> ok end,
    [{page, 2}] = ets:lookup(hits, page).

visit() ->
    [{page, N}] = ets:lookup(hits, page),
    ets:insert(hits, {page, N + 1}).
