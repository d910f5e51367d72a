%% Binaries, of the modules erlang, binary and unicode. {'$binary', [Byte, ..]} represents one; the converter writes the
%% tuple that it really is.
-module(binary_functions).
-compile([export_all, nowarn_export_all]).

%% ---- what a binary is made of: the bytes of a segment, in front of those behind it

'binary segment:byte'(V, Behind) when is_integer(V) -> [V band 255 | Behind];
'binary segment:byte'(_, _) -> error(badarg).

'binary segment:integer'(V, Size, Unit, Endian, Behind) when is_integer(V), is_integer(Size), Size >= 0 ->
    'binary digits'(Endian, V, Size * Unit, Behind);
'binary segment:integer'(_, _, _, _, _) -> error(badarg).

'binary digits'(_, _, 0, Behind) -> Behind;
'binary digits'(big, V, Count, Behind) -> 'binary digits'(big, 'binary shifted'(V), Count - 1, [V band 255 | Behind]);
'binary digits'(little, V, Count, Behind) -> [V band 255 | 'binary digits'(little, 'binary shifted'(V), Count - 1, Behind)].

'binary shifted'(V) -> (V - V band 255) div 256.

'binary segment:all'({'$binary', L}, Unit, Behind) when length(L) * 8 rem Unit =:= 0 -> L ++ Behind;
'binary segment:all'(_, _, _) -> error(badarg).

'binary segment:bytes'({'$binary', L}, Size, Unit, Behind) when is_integer(Size), Size >= 0, Size * Unit =< length(L) ->
    {Taken, _} = 'binary cut'(Size * Unit, L),
    Taken ++ Behind;
'binary segment:bytes'(_, _, _, _) -> error(badarg).

'binary segment:utf8'(C, Behind) when is_integer(C), C >= 0, C < 16#80 -> [C | Behind];
'binary segment:utf8'(C, Behind) when is_integer(C), C >= 16#80, C < 16#800 -> [16#C0 bor (C div 64), 'binary utf8 last'(C) | Behind];
'binary segment:utf8'(C, Behind) when is_integer(C), C >= 16#800, C < 16#D800; is_integer(C), C >= 16#E000, C < 16#10000 ->
    [16#E0 bor (C div 4096), 'binary utf8 last'(C div 64), 'binary utf8 last'(C) | Behind];
'binary segment:utf8'(C, Behind) when is_integer(C), C >= 16#10000, C < 16#110000 ->
    [16#F0 bor (C div 262144), 'binary utf8 last'(C div 4096), 'binary utf8 last'(C div 64), 'binary utf8 last'(C) | Behind];
'binary segment:utf8'(_, _) -> error(badarg).

'binary utf8 last'(C) -> 16#80 bor (C band 63).

%% How many bytes so many units of bits are.
'binary segment:size'(Size, Unit) when is_integer(Size), Size >= 0 -> 'binary whole'(Size * Unit);
'binary segment:size'(_, _) -> error(badarg).

'binary whole'(Bits) when Bits rem 8 =:= 0 -> Bits div 8;
'binary whole'(Bits) -> erlang:'a part of a binary that is no whole bytes'(Bits).

%% The first bytes, and the others. There are enough.
'binary cut'(N, [A, B, C, D, E, F, G, H | T]) when N >= 8 ->
    {Taken, Rest} = 'binary cut'(N - 8, T),
    {[A, B, C, D, E, F, G, H | Taken], Rest};
'binary cut'(N, [A | T]) when N > 0 ->
    {Taken, Rest} = 'binary cut'(N - 1, T),
    {[A | Taken], Rest};
'binary cut'(0, L) -> {[], L}.

%% ---- what a pattern asks of the bytes that are left: {Value, the bytes behind it}, or none

'binary pattern:integer'(L, Size, Unit, Sign, Endian) when is_integer(Size), Size >= 0, Size * Unit =< length(L) ->
    {Taken, Rest} = 'binary cut'(Size * Unit, L),
    Highest = case Endian of big -> Taken; little -> lists:reverse(Taken) end,
    {'binary number'(Sign, Highest), Rest};
'binary pattern:integer'(_, _, _, _, _) -> none.

'binary number'(true, [H | T]) when H > 127 -> 'binary negative'(H, T);
'binary number'(_, L) -> 'binary positive'(L).

'binary positive'([0 | T]) -> 'binary positive'(T);
'binary positive'([H | T] = L) when length(L) > 8; length(L) =:= 8, H > 127 -> erlang:'an integer of a binary past 64 bits'(L);
'binary positive'(L) -> 'binary sum'(L, 0).

'binary negative'(255, [H | T]) when H > 127 -> 'binary negative'(H, T);
'binary negative'(H, T) when length(T) > 7 -> erlang:'an integer of a binary past 64 bits'([H | T]);
'binary negative'(H, T) -> 'binary sum'(T, H - 256).

'binary sum'([H | T], A) -> 'binary sum'(T, A * 256 + H);
'binary sum'([], A) -> A.

'binary pattern:bytes'(L, Size, Unit) when is_integer(Size), Size >= 0, Size * Unit =< length(L) ->
    {Taken, Rest} = 'binary cut'(Size * Unit, L),
    {{'$binary', Taken}, Rest};
'binary pattern:bytes'(_, _, _) -> none.

%% How many bytes so many units of bits are, where there are as many.
'binary pattern:size'(L, Size, Unit) when is_integer(Size), Size >= 0, Size * Unit =< length(L) * 8 -> 'binary whole'(Size * Unit);
'binary pattern:size'(_, _, _) -> none.

'binary pattern:whole'(L, Unit) -> length(L) * 8 rem Unit =:= 0.

'binary pattern:has'(L, Bits) -> length(L) * 8 >= Bits.

'binary pattern:utf8'([A | T]) when A < 16#80 -> {A, T};
'binary pattern:utf8'([A, B | T]) when A >= 16#C2, A < 16#E0, B >= 16#80, B < 16#C0 -> {(A band 31) * 64 + B band 63, T};
'binary pattern:utf8'([A, B, C | T])
  when A >= 16#E0, A < 16#F0, B >= 16#80, B < 16#C0, C >= 16#80, C < 16#C0,
       A =/= 16#E0 orelse B >= 16#A0, A =/= 16#ED orelse B < 16#A0 ->
    {((A band 15) * 64 + B band 63) * 64 + C band 63, T};
'binary pattern:utf8'([A, B, C, D | T])
  when A >= 16#F0, A < 16#F5, B >= 16#80, B < 16#C0, C >= 16#80, C < 16#C0, D >= 16#80, D < 16#C0,
       A =/= 16#F0 orelse B >= 16#90, A =/= 16#F4 orelse B < 16#90 ->
    {(((A band 7) * 64 + B band 63) * 64 + C band 63) * 64 + D band 63, T};
'binary pattern:utf8'(_) -> none.

%% ---- of erlang

'erlang:byte_size'({'$binary', L}) -> length(L);
'erlang:byte_size'(_) -> error(badarg).

'erlang:bit_size'(B) -> 8 * 'erlang:byte_size'(B).

'erlang:size'({'$binary', L}) -> length(L);
'erlang:size'(T) when is_tuple(T) -> tuple_size(T);
'erlang:size'(_) -> error(badarg).

'erlang:binary_to_list'({'$binary', L}) -> L;
'erlang:binary_to_list'(_) -> error(badarg).

'erlang:binary_to_list'({'$binary', L}, From, To)
  when is_integer(From), is_integer(To), From >= 1, From =< To, To =< length(L) ->
    'binary bytes at'(L, From - 1, To - From + 1);
'erlang:binary_to_list'(_, _, _) -> error(badarg).

'erlang:bitstring_to_list'(B) -> 'erlang:binary_to_list'(B).

'binary bytes at'(L, Place, Count) ->
    {_, Behind} = 'binary cut'(Place, L),
    {Taken, _} = 'binary cut'(Count, Behind),
    Taken.

'erlang:list_to_binary'(L) when is_list(L) -> {'$binary', 'binary bytes of'(L, [])};
'erlang:list_to_binary'(_) -> error(badarg).

'erlang:list_to_bitstring'(L) -> 'erlang:list_to_binary'(L).

'erlang:iolist_to_binary'(L) -> {'$binary', 'binary bytes of'(L, [])}.

'erlang:iolist_size'(L) -> length('binary bytes of'(L, [])).

%% The bytes of a deep list of bytes and binaries, in front of others.
'binary bytes of'([H | T], Behind) when is_integer(H), H >= 0, H =< 255 -> [H | 'binary bytes of'(T, Behind)];
'binary bytes of'([H | T], Behind) when not is_integer(H) -> 'binary bytes of'(H, 'binary bytes of'(T, Behind));
'binary bytes of'([], Behind) -> Behind;
'binary bytes of'({'$binary', L}, Behind) -> L ++ Behind;
'binary bytes of'(_, _) -> error(badarg).

'erlang:split_binary'({'$binary', L}, N) when is_integer(N), N >= 0, N =< length(L) ->
    {A, B} = 'binary cut'(N, L),
    {{'$binary', A}, {'$binary', B}};
'erlang:split_binary'(_, _) -> error(badarg).

'erlang:binary_part'(B, {Place, Count}) -> 'erlang:binary_part'(B, Place, Count);
'erlang:binary_part'(_, _) -> error(badarg).

'erlang:binary_part'({'$binary', L}, Place, Count) -> {'$binary', 'binary bytes of part'(L, Place, Count)};
'erlang:binary_part'(_, _, _) -> error(badarg).

%% A count below zero is of the bytes before the place.
'binary bytes of part'(L, Place, Count)
  when is_integer(Place), is_integer(Count), Place >= 0, Count >= 0, Place =< length(L), Count =< length(L) - Place ->
    'binary bytes at'(L, Place, Count);
'binary bytes of part'(L, Place, Count)
  when is_integer(Place), is_integer(Count), Count < 0, Place =< length(L), Count >= -Place ->
    'binary bytes at'(L, Place + Count, -Count);
'binary bytes of part'(_, _, _) -> error(badarg).

'erlang:integer_to_binary'(N) -> 'erlang:integer_to_binary'(N, 10).

'erlang:integer_to_binary'(N, Base) when is_integer(N), is_integer(Base), Base >= 2, Base =< 36 ->
    {'$binary', case N >= 0 of true -> 'binary base digits'(-N, Base, []); false -> [$- | 'binary base digits'(N, Base, [])] end};
'erlang:integer_to_binary'(_, _) -> error(badarg).

%% Of a number below zero, since the least has no number above zero to it.
'binary base digits'(N, Base, Digits) when N > -Base -> ['binary base digit'(-N) | Digits];
'binary base digits'(N, Base, Digits) -> 'binary base digits'(N div Base, Base, ['binary base digit'(-(N rem Base)) | Digits]).

'binary base digit'(D) when D < 10 -> $0 + D;
'binary base digit'(D) -> $A + D - 10.

'erlang:binary_to_integer'(B) -> 'erlang:binary_to_integer'(B, 10).

'erlang:binary_to_integer'({'$binary', L}, Base) when is_integer(Base), Base >= 2, Base =< 36 ->
    Signed = case L of [$- | T] -> {-1, T}; [$+ | T] -> {1, T}; _ -> {1, L} end,
    case Signed of
        {_, []} -> error(badarg);
        {Sign, Digits} -> 'binary value of digits'(['binary value of digit'(C, Base) || C <- Digits], Base, Sign, 0)
    end;
'erlang:binary_to_integer'(_, _) -> error(badarg).

'binary value of digit'(C, Base) when C >= $0, C =< $9, C - $0 < Base -> C - $0;
'binary value of digit'(C, Base) when C >= $a, C =< $z, C - $a + 10 < Base -> C - $a + 10;
'binary value of digit'(C, Base) when C >= $A, C =< $Z, C - $A + 10 < Base -> C - $A + 10;
'binary value of digit'(_, _) -> error(badarg).

%% The sum is kept below zero.
'binary value of digits'([D | T], Base, Sign, A) when A >= (-9223372036854775808 + D) div Base ->
    'binary value of digits'(T, Base, Sign, A * Base - D);
'binary value of digits'([], _, -1, A) -> A;
'binary value of digits'([], _, 1, A) when A > -9223372036854775808 -> -A;
'binary value of digits'(_, _, _, _) -> erlang:'an integer of a binary past 64 bits'([]).

%% ---- of binary

'binary:at'({'$binary', L}, Place) -> hd('binary bytes of part'(L, Place, 1));
'binary:at'(_, _) -> error(badarg).

'binary:first'({'$binary', [H | _]}) -> H;
'binary:first'(_) -> error(badarg).

'binary:last'({'$binary', [_ | _] = L}) -> hd(lists:reverse(L));
'binary:last'(_) -> error(badarg).

'binary:bin_to_list'(B) -> 'erlang:binary_to_list'(B).
'binary:bin_to_list'(B, {Place, Count}) -> 'binary:bin_to_list'(B, Place, Count);
'binary:bin_to_list'(_, _) -> error(badarg).
'binary:bin_to_list'({'$binary', L}, Place, Count) -> 'binary bytes of part'(L, Place, Count);
'binary:bin_to_list'(_, _, _) -> error(badarg).

'binary:list_to_bin'(L) -> 'erlang:list_to_binary'(L).

'binary:part'(B, Part) -> 'erlang:binary_part'(B, Part).
'binary:part'(B, Place, Count) -> 'erlang:binary_part'(B, Place, Count).

'binary:copy'(B) -> 'binary:copy'(B, 1).
'binary:copy'({'$binary', L}, N) when is_integer(N), N >= 0 -> {'$binary', 'binary copies'(L, N, [])};
'binary:copy'(_, _) -> error(badarg).
'binary copies'(_, 0, Copies) -> Copies;
'binary copies'(L, N, Copies) -> 'binary copies'(L, N - 1, L ++ Copies).

'binary:longest_common_prefix'([_ | _] = Binaries) -> 'binary common front'('binary bytes of each'(Binaries));
'binary:longest_common_prefix'(_) -> error(badarg).

'binary:longest_common_suffix'([_ | _] = Binaries) ->
    'binary common front'([lists:reverse(L) || L <- 'binary bytes of each'(Binaries)]);
'binary:longest_common_suffix'(_) -> error(badarg).

'binary bytes of each'([{'$binary', L} | T]) -> [L | 'binary bytes of each'(T)];
'binary bytes of each'([]) -> [];
'binary bytes of each'(_) -> error(badarg).

'binary common front'([One]) -> length(One);
'binary common front'([A, B | T]) -> 'binary common front'(['binary common front'(A, B) | T]).
'binary common front'([X | A], [X | B]) -> [X | 'binary common front'(A, B)];
'binary common front'(_, _) -> [].

'binary:encode_unsigned'(N) -> 'binary:encode_unsigned'(N, big).
'binary:encode_unsigned'(N, Endian) when is_integer(N), N >= 0, Endian =:= big orelse Endian =:= little ->
    {'$binary', 'binary digits'(Endian, N, 'binary count of bytes'(N), [])};
'binary:encode_unsigned'(_, _) -> error(badarg).

'binary count of bytes'(N) when N < 256 -> 1;
'binary count of bytes'(N) -> 1 + 'binary count of bytes'(N div 256).

'binary:decode_unsigned'(B) -> 'binary:decode_unsigned'(B, big).
'binary:decode_unsigned'({'$binary', L}, big) -> 'binary positive'(L);
'binary:decode_unsigned'({'$binary', L}, little) -> 'binary positive'(lists:reverse(L));
'binary:decode_unsigned'(_, _) -> error(badarg).

'binary:encode_hex'({'$binary', L}) -> {'$binary', 'binary hex of'(L)};
'binary:encode_hex'(_) -> error(badarg).
'binary hex of'([H | T]) -> ['binary base digit'(H div 16), 'binary base digit'(H rem 16) | 'binary hex of'(T)];
'binary hex of'([]) -> [].

'binary:decode_hex'({'$binary', L}) -> {'$binary', 'binary bytes of hex'(L)};
'binary:decode_hex'(_) -> error(badarg).
'binary bytes of hex'([A, B | T]) -> [16 * 'binary value of digit'(A, 16) + 'binary value of digit'(B, 16) | 'binary bytes of hex'(T)];
'binary bytes of hex'([]) -> [];
'binary bytes of hex'(_) -> error(badarg).

%% ---- of binary: what is looked for

'binary:match'(B, Patterns) -> 'binary:match'(B, Patterns, []).
'binary:match'({'$binary', L}, Patterns, Options) ->
    {From, Bytes} = 'binary scope'(L, Options),
    'binary find'(Bytes, From, 'binary needles'(Patterns, From + length(Bytes)));
'binary:match'(_, _, _) -> error(badarg).

'binary:matches'(B, Patterns) -> 'binary:matches'(B, Patterns, []).
'binary:matches'({'$binary', L}, Patterns, Options) ->
    {From, Bytes} = 'binary scope'(L, Options),
    'binary find all'(Bytes, From, 'binary needles'(Patterns, From + length(Bytes)));
'binary:matches'(_, _, _) -> error(badarg).

%% The last scope counts: where it begins, and its bytes.
'binary scope'(L, Options) -> 'binary scope'(L, Options, {0, L}).
'binary scope'(L, [{scope, {Place, Count}} | T], _) ->
    Bytes = 'binary bytes of part'(L, Place, Count),
    'binary scope'(L, T, {case Count < 0 of true -> Place + Count; false -> Place end, Bytes});
'binary scope'(_, [], Scope) -> Scope;
'binary scope'(_, _, _) -> error(badarg).

%% Where all bytes are before the first one, what is looked for may be anything.
'binary needles'(_, 0) -> [];
'binary needles'({'$binary', [_ | _] = L}, _) -> [L];
'binary needles'([_ | _] = Patterns, _) ->
    Needles = 'binary bytes of each'(Patterns),
    case lists:member([], Needles) of
        true -> error(badarg);
        false -> Needles
    end;
'binary needles'(_, _) -> error(badarg).

%% The first place, and of those that are there the longest.
'binary find'([], _, _) -> nomatch;
'binary find'([_ | T] = L, Place, Needles) ->
    case 'binary longest'(L, Needles, 0) of
        0 -> 'binary find'(T, Place + 1, Needles);
        Length -> {Place, Length}
    end.

'binary longest'([H | _] = L, [[H | _] = Needle | T], Best) when length(Needle) > Best ->
    case 'binary is in front'(Needle, L) of
        true -> 'binary longest'(L, T, length(Needle));
        false -> 'binary longest'(L, T, Best)
    end;
'binary longest'(L, [_ | T], Best) -> 'binary longest'(L, T, Best);
'binary longest'(_, [], Best) -> Best.

'binary is in front'([X | A], [X | B]) -> 'binary is in front'(A, B);
'binary is in front'(A, _) -> A =:= [].

'binary find all'(L, Place, Needles) ->
    case 'binary find'(L, Place, Needles) of
        nomatch -> [];
        {At, Length} = Found ->
            {_, Behind} = 'binary cut'(At + Length - Place, L),
            [Found | 'binary find all'(Behind, At + Length, Needles)]
    end.

'binary:split'(B, Patterns) -> 'binary:split'(B, Patterns, []).
'binary:split'({'$binary', L} = B, Patterns, Options) ->
    {Scope, Words} = 'binary options'(Options, [global, trim, trim_all]),
    Pieces = 'binary pieces'('binary places'(B, Patterns, Scope, Words), 0, L),
    case {lists:member(trim_all, Words), lists:member(trim, Words)} of
        {true, _} -> [P || P <- Pieces, P =/= {'$binary', []}];
        {_, true} -> lists:reverse('binary without empty'(lists:reverse(Pieces)));
        _ -> Pieces
    end;
'binary:split'(_, _, _) -> error(badarg).

'binary without empty'([{'$binary', []} | T]) -> 'binary without empty'(T);
'binary without empty'(L) -> L.

%% Scopes, for match/3, and the words among the others.
'binary options'([{scope, _} = S | T], Known) ->
    {Scope, Words} = 'binary options'(T, Known),
    {[S | Scope], Words};
'binary options'([Word | T], Known) ->
    case lists:member(Word, Known) of
        true -> {Scope, Words} = 'binary options'(T, Known), {Scope, [Word | Words]};
        false -> error(badarg)
    end;
'binary options'([], _) -> {[], []};
'binary options'(_, _) -> error(badarg).

'binary places'(B, Patterns, Scope, Words) ->
    case lists:member(global, Words) of
        true -> 'binary:matches'(B, Patterns, Scope);
        false -> case 'binary:match'(B, Patterns, Scope) of nomatch -> []; Found -> [Found] end
    end.

%% What is between these places; From is where the list begins.
'binary pieces'([{Place, Length} | T], From, L) ->
    {Piece, Rest} = 'binary cut'(Place - From, L),
    {_, Behind} = 'binary cut'(Length, Rest),
    [{'$binary', Piece} | 'binary pieces'(T, Place + Length, Behind)];
'binary pieces'([], _, L) -> [{'$binary', L}].

'binary:replace'(B, Patterns, New) -> 'binary:replace'(B, Patterns, New, []).
'binary:replace'({'$binary', L} = B, Patterns, {'$binary', New}, Options) ->
    {Inserted, Others} = 'binary insert replaced'(Options, none, []),
    {Scope, Words} = 'binary options'(Others, [global]),
    Places = 'binary places'(B, Patterns, Scope, Words),
    {'$binary', 'binary replaced'(Places, 0, L, 'binary cut at'(Inserted, 0, New))};
'binary:replace'(_, _, _, _) -> error(badarg).

%% Where the old bytes are put into the new ones, the last option of that, and the other options.
'binary insert replaced'([{insert_replaced, N} | T], _, Others) when is_integer(N) -> 'binary insert replaced'(T, [N], Others);
'binary insert replaced'([{insert_replaced, L} | T], _, Others) when is_list(L) -> 'binary insert replaced'(T, L, Others);
'binary insert replaced'([{insert_replaced, _} | _], _, _) -> error(badarg);
'binary insert replaced'([Other | T], Places, Others) -> 'binary insert replaced'(T, Places, [Other | Others]);
'binary insert replaced'([], none, Others) -> {[], lists:reverse(Others)};
'binary insert replaced'([], Places, Others) when length(Places) >= 0 -> {lists:sort(Places), lists:reverse(Others)};
'binary insert replaced'(_, _, _) -> error(badarg).

'binary cut at'([Place | T], From, L) when is_integer(Place), Place >= From, Place - From =< length(L) ->
    {Piece, Rest} = 'binary cut'(Place - From, L),
    [Piece | 'binary cut at'(T, Place, Rest)];
'binary cut at'([], _, L) -> [L];
'binary cut at'(_, _, _) -> error(badarg).

'binary replaced'([{Place, Length} | T], From, L, New) ->
    {Piece, Rest} = 'binary cut'(Place - From, L),
    {Old, Behind} = 'binary cut'(Length, Rest),
    Piece ++ lists:append(lists:join(Old, New)) ++ 'binary replaced'(T, Place + Length, Behind, New);
'binary replaced'([], _, L, _) -> L.

%% ---- of unicode, where all characters are some

'unicode:characters_to_binary'(L) -> {'$binary', 'binary utf8 of'('binary characters of'(L, []))}.

'unicode:characters_to_list'(L) -> 'binary characters of'(L, []).

'binary utf8 of'([C | T]) -> 'binary segment:utf8'(C, 'binary utf8 of'(T));
'binary utf8 of'([]) -> [].

%% The characters of a deep list of characters and binaries, in front of others.
'binary characters of'([H | T], Behind) when is_integer(H), H >= 0, H < 16#D800; is_integer(H), H >= 16#E000, H < 16#110000 ->
    [H | 'binary characters of'(T, Behind)];
'binary characters of'([H | _], _) when is_integer(H) -> erlang:'a character that is none'(H);
'binary characters of'([H | T], Behind) -> 'binary characters of'(H, 'binary characters of'(T, Behind));
'binary characters of'([], Behind) -> Behind;
'binary characters of'({'$binary', L}, Behind) -> 'binary characters of utf8'(L, Behind);
'binary characters of'(_, _) -> error(badarg).

'binary characters of utf8'([], Behind) -> Behind;
'binary characters of utf8'(L, Behind) ->
    case 'binary pattern:utf8'(L) of
        {C, T} -> [C | 'binary characters of utf8'(T, Behind)];
        none -> erlang:'bytes that are no utf8'(L)
    end.
