%% A broker keeps jobs in a queue; takers that ask while it is empty wait in another.
%% want: clean: each taker gets one job
%% depth: 32
-module(queue_broker).
-export([main/0]).

main() ->
    Broker = spawn(fun() -> broker(queue:new(), queue:new(), 2) end),
    Me = self(),
    [spawn(fun() -> Broker ! {take, self()}, receive {job, J} -> Me ! {did, J} end end) || _ <- [1, 2]],
    [Broker ! {put, J} || J <- [a, b]],
    [a, b] = lists:sort([receive {did, J} -> J end || _ <- [1, 2]]),
    ok.

broker(_, _, 0) -> done;
broker(Jobs, Takers, Left) ->
    receive
        {put, Job} ->
            case queue:out(Takers) of
                {{value, To}, Rest} -> To ! {job, Job}, broker(Jobs, Rest, Left - 1);
                {empty, _} -> broker(queue:in(Job, Jobs), Takers, Left)
            end;
        {take, From} ->
            case queue:out(Jobs) of
                {{value, Job}, Rest} -> From ! {job, Job}, broker(Rest, Takers, Left - 1);
                {empty, _} -> broker(Jobs, queue:in(From, Takers), Left)
            end
    end.
