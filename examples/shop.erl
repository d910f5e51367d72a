%% ./explore examples/shop.erl
-module(shop).
-export([main/0]).

%% Two people buy at one till, which asks another module for its prices.
main() ->
    Till = till:open(prices),
    [till:buy(Till, Item) || Item <- [pear, plum]],
    [3, 1] = [till:pay(Till) || _ <- [pear, plum]],
    till:close(Till).
