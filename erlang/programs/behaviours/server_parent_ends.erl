%% The parent of two servers ends: the one that traps exits is terminated, and the other ends without a word.
%% error: P ends {'result',['leaves','leaves'],[{'true','leaves'}]}
%% error: P.1 ends 'leaves'
%% error: P.1.1 ends 'leaves'
%% error: P.1.3 ends 'leaves'
-module(server_parent_ends).
-behaviour(gen_server).
-export([main/0, init/1, handle_call/3, handle_cast/2, terminate/2]).

main() ->
    Main = self(),
    Parent = spawn(fun() -> parent(Main) end),
    Servers = receive {Parent, Pids} -> Pids end,
    Watches = [monitor(process, Pid) || Pid <- Servers],
    Parent ! leave,
    Reasons = [receive {'DOWN', Watch, process, _, Reason} -> Reason end || Watch <- Watches],
    exit({result, Reasons, terminated()}).

parent(Main) ->
    Servers = [Pid || Traps <- [true, false], {ok, Pid} <- [gen_server:start_link(?MODULE, {Traps, Main}, [])]],
    Main ! {self(), Servers},
    receive leave -> exit(leaves) end.

terminated() -> receive {terminate, Traps, Reason} -> [{Traps, Reason} | terminated()] after 0 -> [] end.

init({Traps, Main}) ->
    process_flag(trap_exit, Traps),
    {ok, {Traps, Main}}.

handle_call(_, _, S) -> {reply, ok, S}.

handle_cast(_, S) -> {noreply, S}.

terminate(Reason, {Traps, Main}) -> Main ! {terminate, Traps, Reason}.
