%% A named fun asks again where no answer came; then there may be two answers.
%% want: main ends {left,[pong]} in some schedule
%% depth: 20
%% error: P ends {'left',['pong']}
-module(ask_again).
-export([main/0]).

main() ->
    S = spawn(fun F() -> receive {ping, P} -> P ! pong, F(); stop -> ok end end),
    Ask = fun Again(0) -> none;
              Again(N) ->
                  S ! {ping, self()},
                  receive pong -> pong after 2 -> Again(N - 1) end
          end,
    Ask(2),
    S ! stop,
    Left = receive pong -> [pong] after 0 -> [] end,
    case Left of
        [] -> ok;
        _ -> exit({left, Left})
    end.
