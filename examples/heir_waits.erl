%% ./explore examples/heir_waits.erl
-module(heir_waits).
-export([main/0]).

%% A table outlives its owner: it goes to its heir. But the owner may be stopped before there is a table.
main() ->
    Me = self(),
    Worker = spawn(fun() -> work(Me) end),
    exit(Worker, stop),
    receive {'ETS-TRANSFER', Table, Worker, saved} -> ets:tab2list(Table) end.

work(Heir) ->
    Table = ets:new(work, [{heir, Heir, saved}]),
    ets:insert(Table, {1, half}),
    ets:insert(Table, {2, whole}).
