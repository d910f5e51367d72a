-module(till).
-export([open/1, buy/2, pay/1, close/1, serve/1]).

open(Prices) -> spawn_link(?MODULE, serve, [Prices]).
close(Till) -> Till ! closed.

%% One buyer is a process that asks for somebody else.
buy(Till, Item) ->
    Buyer = self(),
    spawn(fun() -> Till ! {Buyer, Item} end).

pay(Till) -> receive {Till, Price} -> Price end.

serve(Prices) ->
    receive
        {Buyer, Item} -> Buyer ! {self(), Prices:price(Item)}, serve(Prices);
        closed -> ok
    end.
