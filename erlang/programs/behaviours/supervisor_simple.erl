%% Workers of one kind are started when they are asked for; one of them ends by itself, and is counted or not.
%% words: --after-timeout 5000
%% error: P ends {'result',[1],'ok','ok'}
%% error: P ends {'result',[2],'ok','ok'}
%% error: P.1 ends {'result',[1],'ok','ok'}
%% error: P.1 ends {'result',[2],'ok','ok'}
%% error: P.1.4 ends 'killed'
%% error: P.1.7 ends 'killed'
%% error: P.1.8 ends 'killed'
-module(supervisor_simple).
-export([main/0, start_link/2, init/1, work/2]).

main() ->
    {ok, Supervisor} = supervisor:start_link(?MODULE, []),
    {ok, First} = supervisor:start_child(Supervisor, [leave]),
    {ok, Second} = supervisor:start_child(Supervisor, [stay]),
    Count = [N || {active, N} <- supervisor:count_children(Supervisor)],
    Ended = supervisor:terminate_child(Supervisor, Second),
    exit({result, Count, Ended, supervisor:terminate_child(Supervisor, First)}).

start_link(Kind, What) -> {ok, spawn_link(?MODULE, work, [Kind, What])}.

init([]) ->
    Worker = #{id => worker, start => {?MODULE, start_link, [kind]}, restart => temporary, shutdown => brutal_kill},
    {ok, {#{strategy => simple_one_for_one}, [Worker]}}.

work(kind, leave) -> left;
work(kind, stay) -> receive after infinity -> ok end.
