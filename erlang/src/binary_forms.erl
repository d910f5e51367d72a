%% Binaries: what makes one becomes calls of the library, one for each segment, which puts its bytes in front of those of
%% the segments after it.
-module(binary_forms).

-export([is_binary_here/1, text_of_note/0, made/4, kind/1, in_bytes/3, endian/1, in_front/2]).

-include("core.hrl").

text_of_note() -> "binaries are tuples here: they sort among tuples, element/2 and tuple_size/1 take them".

is_binary_here(#c_binary{}) -> true;
is_binary_here(#c_literal{val = V}) -> is_binary(V);
is_binary_here(#c_primop{name = #c_literal{val = bs_init_writable}}) -> true;
is_binary_here(_) -> false.

%% <<Segment, ..>>, or a stop where one of them is not read.
made(#c_binary{anno = Notes, segments = Segments}, Place, Home, Ledger) ->
    case [What || {unread, What, _} <- [kind(S) || S <- Segments]] of
        [What | _] ->
            Parts = lists:append([[V, Size] || #c_bitstr{val = V, size = Size} <- Segments]),
            stops:instead({What, [What, " is not read"]}, Parts, Place, Home, Ledger);
        [] ->
            Put = fun(#c_bitstr{val = V} = S, Behind) -> put_in_front(kind(S), V, Notes, Behind) end,
            Bytes = core_tree:variable('bytes@'),
            Value = lists:foldr(Put, core_tree:literal([]), Segments),
            {#c_let{anno = Notes, vars = [Bytes], arg = Value, body = odd_tuples:binary(Bytes)}, Ledger}
    end.

put_in_front({bytes, Bytes, _}, _, _, Behind) -> in_front([core_tree:literal(B) || B <- Bytes], Behind);
put_in_front(wrong, _, Notes, _) -> core_tree:raise_error(Notes, core_tree:literal(badarg));
put_in_front({integer, 1, _}, V, Notes, Behind) -> segment(Notes, byte, [V, Behind]);
put_in_front({integer, Count, Flags}, V, Notes, Behind) ->
    segment(Notes, integer, [V, core_tree:literal(Count), core_tree:literal(1), core_tree:literal(endian(Flags)), Behind]);
put_in_front({integer, Size, Unit, Flags}, V, Notes, Behind) ->
    {Count, Bytes} = in_bytes(Size, Unit, segment(Notes, size, [Size, Unit])),
    segment(Notes, integer, [V, Count, Bytes, core_tree:literal(endian(Flags)), Behind]);
put_in_front({binary, #c_literal{val = all}, Unit}, V, Notes, Behind) -> segment(Notes, all, [V, Unit, Behind]);
put_in_front({binary, Size, Unit}, V, Notes, Behind) ->
    {Count, Bytes} = in_bytes(Size, Unit, segment(Notes, size, [Size, Unit])),
    segment(Notes, bytes, [V, Count, Bytes, Behind]);
put_in_front({binary, Count}, V, Notes, Behind) ->
    segment(Notes, bytes, [V, core_tree:literal(Count), core_tree:literal(1), Behind]);
put_in_front(utf8, V, Notes, Behind) -> segment(Notes, utf8, [V, Behind]).

segment(Notes, Name, Arguments) -> core_tree:call(Notes, 'binary segment', Name, Arguments).

%% A size, and how many bytes its unit has. Where the unit is of bits, InBits is a call that makes bytes of them, or stops.
in_bytes(Size, #c_literal{val = Unit}, _) when Unit rem 8 =:= 0 -> {Size, core_tree:literal(Unit div 8)};
in_bytes(_, _, InBits) -> {InBits, core_tree:literal(1)}.

%% A list with these first. A list of literals is one literal.
in_front(Firsts, Behind) ->
    lists:foldr(fun(#c_literal{val = V}, #c_literal{val = T}) -> core_tree:literal([V | T]);
                   (First, T) -> #c_cons{hd = First, tl = T}
                end, Behind, Firsts).

%% ---- what a segment is

%% What can be said of a segment before the program runs:
%%   {bytes, Bytes, Fits}          these bytes, and whether a value that is matched can be in them
%%   wrong                         a character that is none
%%   {integer, Count, Flags}       an integer of so many bytes
%%   {integer, Size, Unit, Flags}  one of a size that is computed, or large
%%   {binary, Count}               so many bytes
%%   {binary, Size, Unit}          so many that it is computed, or all where Size says so
%%   utf8
%%   {unread, What, Bits}          what is not read, which takes so many bits at least
kind(#c_bitstr{val = Value, size = Size, unit = Unit, type = #c_literal{val = Type}, flags = #c_literal{val = Flags}}) ->
    case {Value, bits(Size, Unit)} of
        {#c_literal{val = V}, Bits} when is_integer(V) -> of_value(Type, V, Bits, Size, Unit, Flags);
        {_, Bits} -> of_type(Type, Bits, Size, Unit, Flags)
    end.

bits(#c_literal{val = Size}, #c_literal{val = Unit}) when is_integer(Size), Size >= 0, is_integer(Unit) -> Size * Unit;
bits(_, _) -> computed.

of_value(utf8, V, _, _, _, _) -> character(V, utf8);
of_value(Type, V, _, _, _, Flags) when Type =:= utf16; Type =:= utf32 -> character(V, {Type, endian(Flags)});
of_value(integer, V, Bits, _, _, Flags) when is_integer(Bits), Bits rem 8 =:= 0, Bits =< 8 * 4096 ->
    Bytes = case endian(Flags) of big -> <<V:Bits>>; little -> <<V:Bits/little>> end,
    {bytes, binary_to_list(Bytes), fits(V, Bits, lists:member(signed, Flags))};
of_value(Type, _, Bits, Size, Unit, Flags) -> of_type(Type, Bits, Size, Unit, Flags).

fits(V, Bits, false) -> V >= 0 andalso V < 1 bsl Bits;
fits(V, Bits, true) -> Bits > 0 andalso V >= -(1 bsl (Bits - 1)) andalso V < 1 bsl (Bits - 1).

character(C, Encoding) ->
    case unicode:characters_to_binary([C], unicode, Encoding) of
        Bytes when is_binary(Bytes) -> {bytes, binary_to_list(Bytes), true};
        _ -> wrong
    end.

of_type(utf8, _, _, _, _) -> utf8;
of_type(utf16, _, _, _, _) -> {unread, "utf16 in a binary", 16};
of_type(utf32, _, _, _, _) -> {unread, "utf32 in a binary", 32};
of_type(float, Bits, _, _, _) -> {unread, "a float in a binary", case Bits of computed -> 16; _ -> Bits end};
of_type(_, Bits, _, _, _) when is_integer(Bits), Bits rem 8 =/= 0 -> {unread, "a part of a binary that is no whole bytes", Bits};
of_type(integer, Bits, _, _, Flags) when is_integer(Bits), Bits =< 8 * 8 -> {integer, Bits div 8, Flags};
of_type(binary, Bits, _, _, _) when is_integer(Bits), Bits =< 8 * 32 -> {binary, Bits div 8};
of_type(integer, _, Size, Unit, Flags) -> {integer, Size, Unit, Flags};
of_type(binary, _, Size, Unit, _) -> {binary, Size, Unit}.

%% In which order the bytes of an integer come.
endian(Flags) ->
    case {lists:member(little, Flags), lists:member(native, Flags)} of
        {true, _} -> little;
        {_, true} -> erlang:system_info(endian);
        _ -> big
    end.
