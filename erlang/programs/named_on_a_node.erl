%% A client finds its server by {Name,Node}, or sends before that has its name: then the question is lost, and nobody says so.
%% want: main ends answered and lost
%% depth: 12
%% error: P ends 'answered'
%% error: P ends 'lost'
-module(named_on_a_node).
-export([main/0]).

main() ->
    spawn(fun() ->
                  register(server, self()),
                  receive {From, Question} -> From ! {answer, Question} after 100 -> ok end
          end),
    {server, node()} ! {self(), question},
    receive {answer, question} -> exit(answered)
    after 100 -> exit(lost)
    end.
