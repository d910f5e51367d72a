%% Two workers fail at the same time: each ends for its own reason, or since the other one failed; both are started again once.
%% words: --after-timeout 5000
%% error: P ends {'result',['a_fails','b_fails'],2}
%% error: P ends {'result',['a_fails','shutdown'],2}
%% error: P ends {'result',['shutdown','b_fails'],2}
%% error: P.1 ends {'result',['a_fails','b_fails'],2}
%% error: P.1 ends {'result',['a_fails','shutdown'],2}
%% error: P.1 ends {'result',['shutdown','b_fails'],2}
%% error: P.1.2 ends 'a_fails'
%% error: P.1.2 ends 'shutdown'
%% error: P.1.4 ends 'b_fails'
%% error: P.1.4 ends 'shutdown'
%% error: P.1.13 ends 'shutdown'
%% error: P.1.15 ends 'shutdown'
-module(supervisor_one_for_all).
-export([main/0, start_link/2, init/1, work/0]).

main() ->
    {ok, _} = supervisor:start_link(?MODULE, self()),
    [A, B] = started(),
    Watches = [monitor(process, Pid) || Pid <- [A, B]],
    spawn(fun() -> exit(A, a_fails) end),
    exit(B, b_fails),
    Reasons = [receive {'DOWN', Watch, process, _, Reason} -> Reason end || Watch <- Watches],
    exit({result, Reasons, length(started())}).

started() -> [receive {started, Name, Pid} -> Pid end || Name <- [a, b]].

start_link(Name, Main) ->
    Pid = spawn_link(?MODULE, work, []),
    Main ! {started, Name, Pid},
    {ok, Pid}.

init(Main) -> {ok, {#{strategy => one_for_all}, [#{id => Name, start => {?MODULE, start_link, [Name, Main]}} || Name <- [a, b]]}}.

work() -> receive after infinity -> ok end.
