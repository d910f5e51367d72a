%% Patterns with maps and binaries: each becomes one that is read, and steps, in their order, which say what else there has
%% to be for the clause to be taken:
%%   {bind, Var, Value}          Var names a value, in which no function is applied
%%   {is_map, Var}
%%   {look, Key, Var, Pattern}   that map has this key, with such a value
%%   {ask, Call, Pattern}        the call of a function gives this
%%   {stop, Stop}                what comes now is not read
-module(pattern_forms).

-export([opened/4]).

-include("core.hrl").

%%   number, count   what makes new names
-record(open, {number, count = 0, place, home, ledger}).

%% {Patterns, Steps, Ledger}
opened(Patterns, Place, Home, Ledger) ->
    Has = fun(#c_map{}, _) -> true; (#c_binary{}, _) -> true; (_, Sum) -> Sum end,
    case lists:any(fun(P) -> core_tree:fold(Has, false, P) end, Patterns) of
        false -> {Patterns, [], Ledger};
        true ->
            {Number, L} = ledger:number(Ledger),
            O = #open{number = Number, place = Place, home = Home, ledger = L},
            {Open, {Steps, #open{ledger = L1}}} = lists:mapfoldl(fun pattern/2, {[], O}, Patterns),
            {Open, lists:reverse(Steps), L1}
    end.

new(Text, #open{number = Number, count = Count} = O) ->
    {core_tree:variable(list_to_atom(lists:concat([Text, Number, "@", Count + 1]))), O#open{count = Count + 1}}.

%% The state is the steps, the latest first, and what makes names.
pattern(#c_map{es = Pairs}, {Steps, O}) ->
    {Map, O1} = new("map", O),
    {Map, lists:foldl(fun(Pair, S) -> pair(Map, Pair, S) end, {[{is_map, Map} | Steps], O1}, Pairs)};
pattern(#c_binary{segments = Segments}, S) ->
    {Bytes, S1} = segments(Segments, S),
    {odd_tuples:binary(Bytes), S1};
pattern(#c_var{} = V, S) -> {V, S};
pattern(Pattern, S) -> core_tree:children(fun pattern/2, S, Pattern).

pair(Map, #c_map_pair{key = Key, val = V}, {Steps, O}) ->
    {P, {After, O1}} = pattern(V, {[], O}),
    {After ++ [{look, Key, Map, P} | Steps], O1}.

%% ---- the pattern of a list of bytes

segments([], S) -> {core_tree:literal([]), S};
segments([#c_bitstr{val = V} = Segment | T], S) -> segment(binary_forms:kind(Segment), V, T, S).

segment(Kind, #c_literal{val = V}, _, S) when element(1, Kind) =:= integer, not is_integer(V) -> {nothing(), S};
segment({bytes, Bytes, true}, _, T, S) ->
    {Behind, S1} = segments(T, S),
    {binary_forms:in_front([core_tree:literal(B) || B <- Bytes], Behind), S1};
segment({bytes, _, false}, _, _, S) -> {nothing(), S};
segment(wrong, _, _, S) -> {nothing(), S};
segment({integer, 1, Flags}, V, T, S) ->
    case lists:member(signed, Flags) of
        false -> {Behind, S1} = segments(T, S), {binary_forms:in_front([V], Behind), S1};
        true -> bytes(1, fun(Bytes) -> number(Bytes, Flags) end, V, T, S)
    end;
segment({integer, Count, Flags}, V, T, S) ->
    case Count =:= 8 andalso not lists:member(signed, Flags) of
        false when Count > 0 -> bytes(Count, fun(Bytes) -> number(Bytes, Flags) end, V, T, S);
        _ -> integer(core_tree:literal(Count), core_tree:literal(8), Flags, V, T, S)
    end;
segment({integer, Size, Unit, Flags}, V, T, S) -> integer(Size, Unit, Flags, V, T, S);
segment({binary, Count}, V, T, S) ->
    bytes(Count, fun(Bytes) -> odd_tuples:binary(binary_forms:in_front(Bytes, core_tree:literal([]))) end, V, T, S);
segment({binary, #c_literal{val = all}, #c_literal{val = Unit}}, V, [], {Steps, O}) ->
    {Bytes, O1} = new("bytes", O),
    Bind = {bind, V, odd_tuples:binary(Bytes)},
    case 8 rem Unit of
        0 -> {Bytes, {[Bind | Steps], O1}};
        _ -> {Bytes, {[Bind, {ask, look_up(whole, [Bytes, core_tree:literal(Unit)]), core_tree:literal(true)} | Steps], O1}}
    end;
segment({binary, Size, Unit}, V, T, S) -> asked(fun(Bytes) -> sized(bytes, Bytes, Size, Unit, []) end, V, T, S);
segment(utf8, V, T, S) -> asked(fun(Bytes) -> look_up(utf8, [Bytes]) end, V, T, S);
segment({unread, What, Bits}, _, _, {Steps, O}) ->
    {Bytes, #open{place = Place, home = Home, ledger = L} = O1} = new("bytes", O),
    {Stop, L1} = stops:instead({What, [What, " is not read"]}, [], Place, Home, L),
    Has = {ask, look_up(has, [Bytes, core_tree:literal(Bits)]), core_tree:literal(true)},
    {Bytes, {[{stop, Stop}, Has | Steps], O1#open{ledger = L1}}}.

look_up(Name, Arguments) -> core_tree:call([], 'binary pattern', Name, Arguments).

%% No list of bytes is this.
nothing() -> core_tree:literal(none).

%% So many bytes, of which Value(Bytes) is what the segment gives.
bytes(Count, Value, V, T, {Steps, O}) ->
    {Bytes, O1} = lists:mapfoldl(fun(_, X) -> new("byte", X) end, O, lists:seq(1, Count)),
    {Behind, S} = segments(T, {[{bind, V, Value(Bytes)} | Steps], O1}),
    {binary_forms:in_front(Bytes, Behind), S}.

integer(Size, Unit, Flags, V, T, S) ->
    Sign = core_tree:literal(lists:member(signed, Flags)),
    Endian = core_tree:literal(binary_forms:endian(Flags)),
    asked(fun(Bytes) -> sized(integer, Bytes, Size, Unit, [Sign, Endian]) end, V, T, S).

sized(Name, Bytes, Size, Unit, More) ->
    {Count, UnitInBytes} = binary_forms:in_bytes(Size, Unit, look_up(size, [Bytes, Size, Unit])),
    look_up(Name, [Bytes, Count, UnitInBytes | More]).

%% A segment that a function takes from the front of the bytes. It gives {Value, Bytes behind it}, or an atom.
asked(Call, V, T, {Steps, O}) ->
    {Bytes, O1} = new("bytes", O),
    {Behind, {After, O2}} = segments(T, {[], O1}),
    {Bytes, {After ++ [{ask, Call(Bytes), #c_tuple{es = [V, Behind]}} | Steps], O2}}.

%% The number that bytes are, the first one the highest, or the last one. Where it has a sign the highest has it.
number(Bytes, Flags) ->
    [Highest | Others] = case binary_forms:endian(Flags) of big -> Bytes; little -> lists:reverse(Bytes) end,
    First = case lists:member(signed, Flags) of
        true -> signed(Highest);
        false -> Highest
    end,
    lists:foldl(fun(B, Sum) -> plus(core_tree:call_erlang([], '*', [Sum, core_tree:literal(256)]), B) end, First, Others).

signed(Byte) ->
    IsBelow = core_tree:call_erlang([], '>', [Byte, core_tree:literal(127)]),
    #c_case{arg = Byte, clauses = [core_tree:clause([core_tree:variable('byte@')], IsBelow, plus(Byte, core_tree:literal(-256))),
                                   core_tree:clause([core_tree:variable('byte@')], Byte)]}.

plus(A, B) -> core_tree:call_erlang([], '+', [A, B]).
