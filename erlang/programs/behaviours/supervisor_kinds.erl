%% A temporary worker that fails is gone, and a permanent one that ends well is there again, as soon as the supervisor sees it.
%% words: --after-timeout 5000
%% error: P ends {'result',['gone','again']}
%% error: P ends {'result',['gone','not_seen_yet']}
%% error: P ends {'result',['not_seen_yet','again']}
%% error: P ends {'result',['not_seen_yet','not_seen_yet']}
%% error: P.1 ends {'result',['gone','again']}
%% error: P.1 ends {'result',['gone','not_seen_yet']}
%% error: P.1 ends {'result',['not_seen_yet','again']}
%% error: P.1 ends {'result',['not_seen_yet','not_seen_yet']}
%% error: P.1.2 ends 'failed'
%% error: P.1.12 ends 'shutdown'
%% error: P.1.13 ends 'shutdown'
%% error: P.1.14 ends 'shutdown'
%% error: P.1.15 ends 'shutdown'
-module(supervisor_kinds).
-export([main/0, start_link/1, init/1, work/0]).

main() ->
    {ok, Supervisor} = supervisor:start_link(?MODULE, []),
    exit({result, [ended(Kind, Why, Supervisor) || {Kind, Why} <- [{temporary, failed}, {permanent, normal}]]}).

ended(Kind, Why, Supervisor) ->
    {Kind, Pid, _, _} = lists:keyfind(Kind, 1, supervisor:which_children(Supervisor)),
    Watch = monitor(process, Pid),
    Pid ! {leave, Why},
    receive {'DOWN', Watch, process, Pid, Why} -> ok end,
    case lists:keyfind(Kind, 1, supervisor:which_children(Supervisor)) of
        false -> gone;
        {Kind, Pid, _, _} -> not_seen_yet;
        {Kind, Other, _, _} when is_pid(Other) -> again
    end.

start_link(_) -> {ok, spawn_link(?MODULE, work, [])}.

init([]) -> {ok, {#{}, [#{id => Kind, start => {?MODULE, start_link, [Kind]}, restart => Kind} || Kind <- [temporary, permanent]]}}.

work() -> receive {leave, Why} -> exit(Why) end.
