-module(prices).
-export([price/1]).

price(pear) -> 3;
price(plum) -> 1.
