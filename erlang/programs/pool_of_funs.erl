%% Two workers, each a fun, take jobs from a list that a third fun hands out.
%% want: clean
%% depth: 40
-module(pool_of_funs).
-export([main/0]).

main() ->
    Me = self(),
    Hand = spawn(fun() -> hand([one, two], 2) end),
    Work = fun(N) -> fun() -> work(Me, Hand, N, []) end end,
    [spawn(Work(N)) || N <- [a, b]],
    Done = [receive {done, N, L} -> L end || N <- [a, b]],
    [one, two] = lists:sort(lists:append(Done)).

hand(_, 0) -> over;
hand([Job | Rest], Workers) -> receive {next, From} -> From ! {job, Job}, hand(Rest, Workers) end;
hand([], Workers) -> receive {next, From} -> From ! none, hand([], Workers - 1) end.

work(Boss, Hand, Name, Done) ->
    Hand ! {next, self()},
    receive
        {job, Job} -> work(Boss, Hand, Name, [Job | Done]);
        none -> Boss ! {done, Name, Done}
    end.
