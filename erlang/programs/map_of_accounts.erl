%% A server keeps accounts in a map; a client reads and then writes what it read.
%% want: main ends {badmatch,6} or {badmatch,7} where the two clients overlap, and is fine otherwise
%% depth: 44
%% error: P ends {{'badmatch',6},[]}
%% error: P ends {{'badmatch',7},[]}
%% error: P.1 ends 'killed'
%% error: deadlock of P.1
-module(map_of_accounts).
-export([main/0]).

main() ->
    Bank = spawn(fun() -> bank(#{anna => 5}) end),
    Me = self(),
    [spawn(fun() -> pay(Bank, anna, N), Me ! paid end) || N <- [1, 2]],
    [receive paid -> ok end || _ <- [1, 2]],
    8 = ask(Bank, {read, anna}),
    exit(Bank, kill).

pay(Bank, Who, N) ->
    Old = ask(Bank, {read, Who}),
    written = ask(Bank, {write, Who, Old + N}).

ask(Bank, What) ->
    Bank ! {self(), What},
    receive {Bank, Answer} -> Answer end.

bank(Accounts) ->
    receive
        {From, {read, Who}} ->
            #{Who := Sum} = Accounts,
            From ! {self(), Sum},
            bank(Accounts);
        {From, {write, Who, Sum}} ->
            From ! {self(), written},
            bank(Accounts#{Who := Sum})
    end.
