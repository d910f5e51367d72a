%% A server ends when nothing came for a while, and starts its timer anew with each message. The old one is cancelled, but its
%% message may be there already.
%% want: the server may end stale
%% depth: 12
%% error: P.1 ends 'stale'
-module(timer_started_anew).
-export([main/0, server/0]).

main() ->
    S = spawn(?MODULE, server, []),
    S ! poke.

server() -> wait(erlang:start_timer(1, self(), quiet)).

wait(T) ->
    receive
        poke ->
            erlang:cancel_timer(T),
            wait(erlang:start_timer(1, self(), quiet));
        {timeout, T, quiet} -> ok;
        {timeout, _, quiet} -> exit(stale)
    end.
