%% Linked workers; one crashes, and takes those with it that do not trap exits.
%% want: the one worker ends {bad,2}; main traps exits and is fine
%% depth: 12
%% error: P.3 ends {'bad',2}
-module(link_group).
-export([main/0]).

main() ->
    process_flag(trap_exit, true),
    Pids = lists:map(fun(N) -> spawn_link(fun() -> work(N) end) end, [1, 2]),
    Ends = [receive {'EXIT', P, Why} -> Why end || P <- Pids],
    [normal, {bad, 2}] = Ends.

work(2) -> exit({bad, 2});
work(_) -> ok.
