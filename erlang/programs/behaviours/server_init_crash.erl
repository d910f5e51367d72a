%% Two servers that are linked end in init: the starter is told, and traps the exits, which come in any order.
%% error: P ends {'result',['broken','no_room']}
%% error: P ends {'result',['no_room','broken']}
%% error: P.2 ends {'broken',[]}
%% error: P.4 ends 'no_room'
-module(server_init_crash).
-behaviour(gen_server).
-export([main/0, init/1, handle_call/3, handle_cast/2]).

main() ->
    process_flag(trap_exit, true),
    {error, {broken, _}} = gen_server:start_link(?MODULE, crashed, []),
    {error, no_room} = gen_server:start_link(?MODULE, stopped, []),
    Exits = [receive {'EXIT', _, Reason} -> kind(Reason) end || _ <- [first, second]],
    exit({result, Exits}).

kind({Reason, Trace}) when is_list(Trace) -> Reason;
kind(Reason) -> Reason.

init(crashed) -> error(broken);
init(stopped) -> {stop, no_room}.

handle_call(_, _, S) -> {reply, S, S}.

handle_cast(_, S) -> {noreply, S}.
