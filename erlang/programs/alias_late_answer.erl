%% Questions with a time: an answer goes to an alias that ends with its watch, so one that comes too late is nobody's.
%% want: main ends with each question answered by its own answer, or by none
%% depth: 22
%% error: P ends {'late','late'}
%% error: P ends {'late','two'}
%% error: P ends {'one','late'}
%% error: P ends {'one','two'}
-module(alias_late_answer).
-export([main/0, server/1]).

main() ->
    S = spawn(?MODULE, server, [2]),
    First = ask(S, one),
    exit({First, ask(S, two)}).

ask(S, Question) ->
    R = monitor(process, S, [{alias, demonitor}]),
    S ! {Question, R},
    receive
        {R, Answer} -> demonitor(R, [flush]), Answer
    after 1 ->
        demonitor(R, [flush]),
        receive {R, Answer} -> Answer after 0 -> late end
    end.

server(0) -> ok;
server(N) ->
    receive {Question, R} -> R ! {R, Question} end,
    server(N - 1).
