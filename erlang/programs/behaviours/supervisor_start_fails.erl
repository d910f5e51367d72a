%% A worker cannot be started: those before it are ended, and the supervisor gives the reason. A name that is taken is one.
%% words: --after-timeout 5000
%% error: P ends {'result','ok'}
%% error: P ends {'result',{'b','taken'}}
%% error: P.2 ends {'badarg',[]}
%% error: P.2 ends {'result','ok'}
%% error: P.2 ends {'result',{'b','taken'}}
%% error: P.3 ends {'result','ok'}
%% error: P.3 ends {'shutdown',{'failed_to_start_child','b','taken'}}
%% error: P.3.2 ends 'shutdown'
%% error: P.3.4 ends 'shutdown'
%% error: P.3.4 ends {'shutdown',{'failed_to_start_child','b','taken'}}
-module(supervisor_start_fails).
-export([main/0, start_link/1, init/1, work/0]).

main() ->
    process_flag(trap_exit, true),
    spawn_link(fun() -> register(b, self()), receive leave -> ok end end),
    Started = supervisor:start_link(?MODULE, []),
    Kind = case Started of
        {ok, _} -> ok;
        {error, {shutdown, {failed_to_start_child, Name, Why}}} -> {Name, Why}
    end,
    exit({result, Kind}).

start_link(Name) ->
    Pid = spawn_link(?MODULE, work, []),
    try register(Name, Pid) of true -> {ok, Pid} catch error:badarg -> {error, taken} end.

init([]) -> {ok, {#{}, [#{id => Name, start => {?MODULE, start_link, [Name]}} || Name <- [a, b]]}}.

work() -> receive after infinity -> ok end.
