%% A publisher keeps its subscribers in a map; one that subscribes late misses the news.
%% want: a subscriber waits for ever in some schedule
%% depth: 16
%% error: deadlock of P.2
-module(publish_once).
-export([main/0]).

main() ->
    Hub = spawn(fun() -> hub(#{}) end),
    spawn(fun() -> Hub ! {subscribe, news, self()}, receive {news, N} -> N end end),
    Hub ! {publish, news, rain}.

hub(Topics) ->
    receive
        {subscribe, T, P} -> hub(Topics#{T => [P | maps:get(T, Topics, [])]});
        {publish, T, What} -> [P ! {T, What} || P <- maps:get(T, Topics, [])]
    end.
