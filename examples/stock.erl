%% ./explore examples/stock.erl
-module(stock).
-export([main/0]).

%% The stock is a map. A customer may be there before the goods are.
main() ->
    Stock = spawn(fun() -> stock(#{}) end),
    spawn(fun() -> Stock ! {put, tea, 3} end),
    Stock ! {take, tea, self()},
    receive {left, 2} -> Stock ! close end.

stock(Goods) ->
    receive
        {put, What, Many} -> stock(Goods#{What => Many});
        {take, What, From} ->
            #{What := Many} = Goods,
            From ! {left, Many - 1},
            stock(Goods#{What := Many - 1});
        close -> closed
    end.
