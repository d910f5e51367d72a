%% Two workers trap exits and take their time: the one that is shut down with a time may say farewell, and the other is killed.
%% words: --after-timeout 5000
%% error: P ends {'result',['ok','ok'],[]}
%% error: P ends {'result',['ok','ok'],[{'asked','shutdown'}]}
%% error: P.1 ends {'result',['ok','ok'],[]}
%% error: P.1 ends {'result',['ok','ok'],[{'asked','shutdown'}]}
%% error: P.1.2 ends 'killed'
%% error: P.1.3 ends 'killed'
-module(supervisor_brutal).
-export([main/0, start_link/2, init/1, work/2]).

main() ->
    {ok, Supervisor} = supervisor:start_link(?MODULE, self()),
    [receive {Name, ready} -> ok end || Name <- [killed, asked]],
    Ended = [supervisor:terminate_child(Supervisor, Name) || Name <- [killed, asked]],
    exit({result, Ended, farewells()}).

farewells() -> receive {Name, Reason} -> [{Name, Reason} | farewells()] after 0 -> [] end.

start_link(Name, Main) -> {ok, spawn_link(?MODULE, work, [Name, Main])}.

init(Main) ->
    {ok, {#{}, [#{id => Name, start => {?MODULE, start_link, [Name, Main]}, shutdown => How}
                || {Name, How} <- [{killed, brutal_kill}, {asked, 2}]]}}.

work(Name, Main) ->
    process_flag(trap_exit, true),
    Main ! {Name, ready},
    receive {'EXIT', _, Reason} -> timer:sleep(1), Main ! {Name, Reason} end.
