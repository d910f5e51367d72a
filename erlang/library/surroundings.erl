%% What a process asks of the machine around it: time, chance, its node, and flags that change nothing of what it does.
%% Time stands still, on the first day of 2026; of several numbers chance takes the first.
-module(surroundings).
-compile([export_all, nowarn_export_all]).

%% ---- time

'erlang:monotonic_time'() -> 0.
'erlang:monotonic_time'(Unit) -> 'time in'(0, Unit).
'erlang:time_offset'() -> 1767225600000000000.
'erlang:time_offset'(Unit) -> 'time in'('erlang:time_offset'(), Unit).
'erlang:system_time'() -> 'erlang:time_offset'().
'erlang:system_time'(Unit) -> 'erlang:time_offset'(Unit).
'os:system_time'() -> 'erlang:time_offset'().
'os:system_time'(Unit) -> 'erlang:time_offset'(Unit).
'erlang:timestamp'() -> {1767, 225600, 0}.
'erlang:now'() -> 'erlang:timestamp'().
'os:timestamp'() -> 'erlang:timestamp'().
'erlang:date'() -> {2026, 1, 1}.
'erlang:time'() -> {0, 0, 0}.
'erlang:localtime'() -> {'erlang:date'(), 'erlang:time'()}.
'erlang:universaltime'() -> 'erlang:localtime'().

'time in'(Time, Unit) -> 'erlang:convert_time_unit'(Time, native, Unit).

%% It rounds down. The whole seconds and the rest are taken apart, so that no number on the way is past 64 bits.
'erlang:convert_time_unit'(Time, From, To) when is_integer(Time) ->
    Old = 'time units'(From),
    New = 'time units'(To),
    Seconds = 'time floor'(Time, Old),
    Seconds * New + (Time - Seconds * Old) * New div Old;
'erlang:convert_time_unit'(_, _, _) -> error(badarg).

'time floor'(Time, N) when Time < 0 -> (Time + 1) div N - 1;
'time floor'(Time, N) -> Time div N.

%% How many of a unit are in a second.
'time units'(N) when is_integer(N), N > 0 -> N;
'time units'(Unit) ->
    case lists:keyfind(Unit, 1, [{second, 1}, {seconds, 1}, {millisecond, 1000}, {milli_seconds, 1000}, {microsecond, 1000000},
                                 {micro_seconds, 1000000}, {nanosecond, 1000000000}, {nano_seconds, 1000000000}, {native, 1000000000},
                                 {perf_counter, 1000000000}]) of
        {_, N} -> N;
        false -> error(badarg)
    end.

%% Since when, and how long since the last call.
'erlang:statistics'(Kind) ->
    case lists:member(Kind, [wall_clock, runtime, reductions, exact_reductions]) of
        true -> {0, 0};
        false -> erlang:'statistics/1 of this kind'(Kind)
    end.

'timer:now_diff'({A, B, C}, {D, E, F}) -> ((A - D) * 1000000 + B - E) * 1000000 + C - F.
'timer:tc'(F) -> {0, F()}.
'timer:tc'(F, Arguments) -> {0, apply(F, Arguments)}.
'timer:tc'(M, F, Arguments) -> {0, apply(M, F, Arguments)}.

%% ---- chance

'rand:uniform'(N) when is_integer(N), N >= 1 -> 1.
'rand:uniform_s'(N, State) when is_integer(N), N >= 1 -> {1, State}.
'rand:seed'(Algorithm) -> 'rand:seed_s'(Algorithm).
'rand:seed'(Algorithm, Seed) -> 'rand:seed_s'(Algorithm, Seed).
'rand:seed_s'({rand, _} = State) -> State;
'rand:seed_s'(Algorithm) -> 'rand state'(Algorithm).
'rand:seed_s'(Algorithm, {A, B, C}) when is_integer(A), is_integer(B), is_integer(C) -> 'rand state'(Algorithm);
'rand:seed_s'(Algorithm, Seed) when is_integer(Seed) -> 'rand state'(Algorithm);
'rand:seed_s'(_, Seed) -> erlang:'a seed of this form'(Seed).

'rand state'(Algorithm) ->
    case lists:member(Algorithm, [default, exsss, exro928ss, exrop, exsp, exs1024s, exsplus, exs64, exs1024, dummy]) of
        true -> {rand, Algorithm};
        false -> erlang:'an algorithm of this name'(Algorithm)
    end.

'random:uniform'(N) when is_integer(N), N >= 1 -> 1.
'random:uniform_s'(N, {_, _, _} = State) when is_integer(N), N >= 1 -> {1, State}.
'random:seed0'() -> {3172, 9814, 20125}.
'random:seed'() ->
    case put(random_seed, 'random:seed0'()) of
        undefined -> 'random:seed0'();
        Seed -> Seed
    end.
'random:seed'({A, B, C}) -> 'random:seed'(A, B, C).
'random:seed'(A, B, C) -> put(random_seed, {abs(A) rem 30268 + 1, abs(B) rem 30306 + 1, abs(C) rem 30322 + 1}).

%% ---- the node, and who takes what is written

'erlang:nodes'() -> [].
'erlang:nodes'(Kinds) when is_list(Kinds) ->
    case length(Kinds) >= 0 andalso ['nodes of'(Kind) || Kind <- Kinds] of
        Found -> lists:usort(lists:append(Found))
    end;
'erlang:nodes'(Kind) -> 'nodes of'(Kind).

'nodes of'(Kind) when Kind =:= this; Kind =:= known -> [node()];
'nodes of'(Kind) when Kind =:= visible; Kind =:= hidden; Kind =:= connected -> [];
'nodes of'(_) -> error(badarg).

'erlang:is_alive'() -> false.

%% No other process is there that could be the leader.
'erlang:group_leader'() -> self().
'erlang:group_leader'(Leader, Process) when is_pid(Leader), is_pid(Process) -> true;
'erlang:group_leader'(_, _) -> error(badarg).

%% ---- what has no effect

'erlang:garbage_collect'() -> true.
'erlang:garbage_collect'(P) when is_pid(P) -> is_process_alive(P);
'erlang:garbage_collect'(_) -> error(badarg).

'erlang:yield'() -> true.

'erlang:bump_reductions'(N) when is_integer(N), N >= 0 -> true;
'erlang:bump_reductions'(_) -> error(badarg).

%% A flag that is computed; one that is written goes to where it belongs.
'flag that is computed:set'(trap_exit, Traps) -> process_flag(trap_exit, Traps);
'flag that is computed:set'(Flag, Value) ->
    case lists:keymember(Flag, 1, 'flags and values'()) of
        true -> 'flag without effect:set'(Flag, Value);
        false -> erlang:'process_flag/2 of another flag'(Flag)
    end.

%% The answer is what a process has that never set the flag.
'flag without effect:set'(Flag, Value) ->
    {_, Old, Is} = lists:keyfind(Flag, 1, 'flags and values'()),
    case Is(Value) of
        true -> Old;
        false -> error(badarg)
    end.

'flags and values'() ->
    IsSize = fun(N) -> is_integer(N) andalso N >= 0 end,
    [{priority, normal, fun(Level) -> lists:member(Level, [low, normal, high, max]) end},
     {message_queue_data, on_heap, fun(Where) -> lists:member(Where, [on_heap, off_heap]) end},
     {min_heap_size, 233, IsSize},
     {min_bin_vheap_size, 46422, IsSize},
     {max_heap_size, {'$map', [{error_logger, true}, {kill, true}, {size, 0}]}, fun 'is largest heap'/1},
     {fullsweep_after, 65535, IsSize},
     {save_calls, 0, fun(N) -> is_integer(N) andalso N >= 0 andalso N =< 10000 end},
     {sensitive, false, fun(Is) -> is_boolean(Is) end}].

'is largest heap'({'$map', L}) ->
    'is largest heap'(proplists:get_value(size, L, none)) andalso is_boolean(proplists:get_value(kill, L, true))
        andalso is_boolean(proplists:get_value(error_logger, L, true));
'is largest heap'(N) -> is_integer(N) andalso (N =:= 0 orelse N >= 233).

%% ---- how processes begin

%% What spawn_opt/2 and spawn_opt/4 do. A link and a watch at once would be two steps, which they are not.
'spawn options:kind'(Options) ->
    'spawn options are right'(Options),
    case {lists:member(link, Options), lists:member(monitor, Options)} of
        {false, false} -> spawn;
        {true, false} -> spawn_link;
        {false, true} -> spawn_monitor;
        {true, true} -> erlang:'spawn_opt with link and monitor'(Options)
    end.

'spawn options are right'([Option | Options]) when Option =:= link; Option =:= monitor -> 'spawn options are right'(Options);
'spawn options are right'([{Kind, _} = Option | _]) when Kind =:= monitor; Kind =:= scheduler; Kind =:= async_dist ->
    erlang:'spawn_opt with this option'(Option);
'spawn options are right'([{Flag, Value} | Options]) when Flag =/= save_calls, Flag =/= sensitive ->
    'flag may have value'(Flag, Value) orelse error(badarg),
    'spawn options are right'(Options);
'spawn options are right'([]) -> ok;
'spawn options are right'(_) -> error(badarg).

'flag may have value'(Flag, Value) ->
    case lists:keyfind(Flag, 1, 'flags and values'()) of
        {_, _, Is} -> Is(Value);
        false -> false
    end.

%% Where the call is computed, and what the process begins with too.
'erlang:spawn'(M, F, Arguments) -> spawn(M, F, Arguments).
'erlang:spawn_link'(M, F, Arguments) -> spawn_link(M, F, Arguments).
'erlang:spawn_monitor'(M, F, Arguments) -> spawn_monitor(M, F, Arguments).

%% ---- functions and lists of arguments

'erlang:apply'(F, L) when length(L) >= 0 -> 'apply to list'(F, L);
'erlang:apply'(_, _) -> error(badarg).

'apply to list'(F, []) -> F();
'apply to list'(F, [A]) -> F(A);
'apply to list'(F, [A, B]) -> F(A, B);
'apply to list'(F, [A, B, C]) -> F(A, B, C);
'apply to list'(F, [A, B, C, D]) -> F(A, B, C, D);
'apply to list'(F, [A, B, C, D, E]) -> F(A, B, C, D, E);
'apply to list'(F, [A, B, C, D, E, G]) -> F(A, B, C, D, E, G);
'apply to list'(F, [A, B, C, D, E, G, H]) -> F(A, B, C, D, E, G, H);
'apply to list'(F, [A, B, C, D, E, G, H, I]) -> F(A, B, C, D, E, G, H, I);
'apply to list'(F, [A, B, C, D, E, G, H, I, J]) -> F(A, B, C, D, E, G, H, I, J);
'apply to list'(F, [A, B, C, D, E, G, H, I, J, K]) -> F(A, B, C, D, E, G, H, I, J, K);
'apply to list'(_, L) -> erlang:'apply/2 of more than ten arguments'(L).
