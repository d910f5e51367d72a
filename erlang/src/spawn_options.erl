%% spawn_opt with options that are written: one of spawn, spawn_link and spawn_monitor. Options of another kind change
%% nothing of what a process does. Where options are computed, the call stays, and the linker lets a function look at them.
-module(spawn_options).

-export([replace/2]).

-include("core.hrl").

replace(Code, Ledger) -> core_tree:walk(fun rule/3, {"", 0}, Ledger, Code).

rule(#c_call{module = #c_literal{val = erlang}, name = #c_literal{val = spawn_opt}, args = [_ | _] = Args} = N, _, L)
  when length(Args) =:= 2; length(Args) =:= 4 ->
    case options(lists:last(Args)) of
        unknown -> {inside, N, L};
        Options -> spawned(N, lists:droplast(Args), lists:member(link, Options), lists:member(monitor, Options), L)
    end;
rule(N, _, L) -> {inside, N, L}.

options(#c_literal{val = V}) when length(V) >= 0 ->
    Options = [option(O) || O <- V],
    case lists:member(unknown, Options) of
        true -> unknown;
        false -> Options
    end;
options(_) -> unknown.

option(link) -> link;
option(monitor) -> monitor;
option({priority, Level}) when Level =:= low; Level =:= normal; Level =:= high; Level =:= max -> none;
option({message_queue_data, Where}) when Where =:= on_heap; Where =:= off_heap -> none;
option({Size, N}) when is_integer(N), N >= 0, Size =:= fullsweep_after orelse Size =:= min_heap_size orelse Size =:= min_bin_vheap_size ->
    none;
option({max_heap_size, N}) when N =:= 0; is_integer(N), N >= 233 -> none;
option({max_heap_size, #{size := N}}) when is_integer(N) -> none;
option(_) -> unknown.

spawned(N, Args, false, false, L) -> {inside, named(N, spawn, Args), L};
spawned(N, Args, true, false, L) -> {inside, named(N, spawn_link, Args), L};
spawned(N, Args, false, true, L) -> {inside, named(N, spawn_monitor, Args), L};
spawned(#c_call{anno = Notes} = N, Args, true, true, L) ->
    {Number, L1} = ledger:number(ledger:note("spawn_opt with link and monitor is two steps here", [], L)),
    Pid = core_tree:variable(list_to_atom(lists:concat(["spawned", Number, "@"]))),
    Watch = core_tree:call_erlang(Notes, monitor, [core_tree:literal(process), Pid]),
    {inside, #c_let{anno = Notes, vars = [Pid], arg = named(N, spawn_link, Args), body = #c_tuple{es = [Pid, Watch]}}, L1}.

named(N, Name, Args) -> N#c_call{name = core_tree:literal(Name), args = Args}.
