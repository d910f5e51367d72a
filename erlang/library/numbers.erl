%% Numbers of erlang that the explorer does not have: their texts, shifts, and what hashes a term.
-module(numbers).
-compile([export_all, nowarn_export_all]).

%% ---- texts

'erlang:integer_to_list'(N, Base) when is_integer(N), is_integer(Base), Base >= 2, Base =< 36 ->
    case N >= 0 of
        true -> 'digits in base'(-N, Base, []);
        false -> [$- | 'digits in base'(N, Base, [])]
    end;
'erlang:integer_to_list'(_, _) -> error(badarg).

%% Of a number below zero, since the least has no number above zero to it.
'digits in base'(N, Base, Digits) when N > -Base -> ['digit of'(-N) | Digits];
'digits in base'(N, Base, Digits) -> 'digits in base'(N div Base, Base, ['digit of'(-(N rem Base)) | Digits]).

'digit of'(N) when N < 10 -> $0 + N;
'digit of'(N) -> $A - 10 + N.

'erlang:list_to_integer'(Text) -> 'erlang:list_to_integer'(Text, 10).
'erlang:list_to_integer'([$- | Text], Base) when is_integer(Base), Base >= 2, Base =< 36 -> 'number below zero'(Text, Base);
'erlang:list_to_integer'([$+ | Text], Base) when is_integer(Base), Base >= 2, Base =< 36 -> -'number below zero'(Text, Base);
'erlang:list_to_integer'(Text, Base) when is_integer(Base), Base >= 2, Base =< 36 -> -'number below zero'(Text, Base);
'erlang:list_to_integer'(_, _) -> error(badarg).

'number below zero'([_ | _] = Text, Base) -> 'number below zero'(Text, Base, 0);
'number below zero'(_, _) -> error(badarg).

'number below zero'([C | Text], Base, N) -> 'number below zero'(Text, Base, N * Base - 'digit to number'(C, Base));
'number below zero'([], _, N) -> N;
'number below zero'(_, _, _) -> error(badarg).

'digit to number'(C, Base) when C >= $0, C =< $9, C - $0 < Base -> C - $0;
'digit to number'(C, Base) when C >= $A, C =< $Z, C - $A + 10 < Base -> C - $A + 10;
'digit to number'(C, Base) when C >= $a, C =< $z, C - $a + 10 < Base -> C - $a + 10;
'digit to number'(_, _) -> error(badarg).

%% ---- an integer has no part after the point

'erlang:round'(N) -> 'whole number'(N).
'erlang:trunc'(N) -> 'whole number'(N).
'erlang:floor'(N) -> 'whole number'(N).
'erlang:ceil'(N) -> 'whole number'(N).

'whole number'(N) when is_integer(N) -> N;
'whole number'(_) -> error(badarg).

%% ---- shifts

'erlang:bsl'(X, N) when is_integer(X), is_integer(N) ->
    case {N < 0, N < -63, X, N > 63} of
        {_, true, _, _} -> 'shift right'(X, 64);
        {true, _, _, _} -> 'shift right'(X, -N);
        {_, _, 0, _} -> 0;
        {_, _, _, true} -> error(system_limit);
        _ -> 'shift left'(X, N)
    end;
'erlang:bsl'(_, _) -> error(badarith).

'erlang:bsr'(X, N) when is_integer(X), is_integer(N), N < -64 -> 'erlang:bsl'(X, 64);
'erlang:bsr'(X, N) when is_integer(X), is_integer(N) -> 'erlang:bsl'(X, -N);
'erlang:bsr'(_, _) -> error(badarith).

'shift left'(X, 0) -> X;
'shift left'(X, N) -> 'shift left'(X * 2, N - 1).

'shift right'(X, N) when X =:= 0; X =:= -1; N =:= 0 -> X;
'shift right'(X, N) -> 'shift right'((X - X band 1) div 2, N - 1).

%% ---- the hash of a term, as the emulator makes it of words of 32 bits

'erlang:phash2'(T) -> 'hash of'(T, 0) band 16#7FFFFFF.
'erlang:phash2'(T, Range) when is_integer(Range), Range >= 1, Range =< 16#100000000 -> 'hash of'(T, 0) rem Range;
'erlang:phash2'(_, _) -> error(badarg).

'hash of'(A, H) when is_atom(A) ->
    case 'hash of atom'(atom_to_list(A), 0) of
        N when H =:= 0 -> N;
        N -> 'hash in'(N, 0, 16#daa66d2b, H)
    end;
'hash of'(N, H) when is_integer(N), N >= -16#8000000, N < 0 -> 'hash in'(N, 0, 16#9e3779b9, 'hash in'(-N, 0, 16#9e3779b9, H));
'hash of'(N, H) when is_integer(N), N >= 0, N < 16#8000000 -> 'hash in'(N, 0, 16#9e3779b9, H);
'hash of'(N, H) when is_integer(N), N >= 0 -> 'hash in'(N, N div 16#100000000, 16#cc623af3, H);
'hash of'(N, H) when is_integer(N) -> 'hash in'(-(N rem 16#100000000), -(N div 16#100000000), 16#2e2ac13a, H);
'hash of'([], 0) -> 3468870702;
'hash of'([], H) -> 'hash in'(2, 0, 16#3c6ef372, H);
'hash of'([_ | _] = L, H) -> 'hash of list'(L, 0, 0, H);
'hash of'({'$map', L}, _) -> erlang:'phash2 of a map'(L);
'hash of'({'$binary', L}, _) -> erlang:'phash2 of a binary'(L);
'hash of'(T, H) when is_tuple(T) ->
    'hash of each'(tuple_to_list(T), 'hash in'(tuple_size(T), 0, 16#8ff34781, H));
'hash of'(T, _) -> erlang:'phash2 of a pid, a reference or a function'(T).

'hash of each'([X | T], H) -> 'hash of each'(T, 'hash of'(X, H));
'hash of each'([], H) -> H.

%% Four bytes of a list are one word.
'hash of list'([C | T], Word, Count, H) when is_integer(C), C >= 0, C < 256 ->
    case {T, Count} of
        {[_ | _], 3} -> 'hash of list'(T, 0, 0, 'hash in'(Word * 256 + C, 0, 16#78dde6e4, H));
        {[_ | _], _} -> 'hash of list'(T, Word * 256 + C, Count + 1, H);
        _ -> 'hash of'(T, 'hash in'(Word * 256 + C, 0, 16#78dde6e4, H))
    end;
'hash of list'([X | T], _, 0, H) -> 'hash of'(T, 'hash of'(X, H));
'hash of list'([X | T], Word, _, H) -> 'hash of'(T, 'hash of'(X, 'hash in'(Word, 0, 16#78dde6e4, H))).

'hash of atom'([C | Text], H) when C < 256 ->
    N = H * 16 + C,
    High = N band 16#f0000000,
    'hash of atom'(Text, ((N bxor (High div 16#1000000)) bxor High) band 16#FFFFFFFF);
'hash of atom'([C | _], _) -> erlang:'phash2 of an atom with letters past 255'(C);
'hash of atom'([], H) -> H.

%% Two words, mixed into the hash.
'hash in'(X, Y, Constant, C) ->
    A = (Constant + X) band 16#FFFFFFFF,
    B = (Constant + Y) band 16#FFFFFFFF,
    {A1, B1, C1} = 'hash mixed'(A, B, C, 8192, 256, 8192),
    {A2, B2, C2} = 'hash mixed'(A1, B1, C1, 4096, 65536, 32),
    {_, _, C3} = 'hash mixed'(A2, B2, C2, 8, 1024, 32768),
    C3.

'hash mixed'(A, B, C, Right, Left, Last) ->
    A1 = ((A - B - C) band 16#FFFFFFFF) bxor (C div Right),
    B1 = ((B - C - A1) band 16#FFFFFFFF) bxor ((A1 * Left) band 16#FFFFFFFF),
    C1 = ((C - A1 - B1) band 16#FFFFFFFF) bxor (B1 div Last),
    {A1, B1, C1}.

%% ---- the older hash: sums and products of words of 32 bits

'erlang:phash'(T, Range) when is_integer(Range), Range >= 1, Range =< 16#100000000 -> 'old hash'(T, 0) rem Range + 1;
'erlang:phash'(_, _) -> error(badarg).

'old hash'([], H) -> 'hash step'(H, 268435459, 1);
'old hash'(A, H) when is_atom(A) -> 'hash step'(H, 268440163, 'hash of atom'(atom_to_list(A), 0));
'old hash'(N, H) when is_integer(N), N >= -16#800000000000000, N < 16#800000000000000 ->
    Low = 'hash bytes'(abs(N) band 16#FFFFFFFF, 4, H),
    Whole = case abs(N) div 16#100000000 of 0 -> Low; High -> 'hash bytes'(High, 4, Low) end,
    case N < 0 of
        true -> 'hash step'(Whole, 268436141, 0);
        false -> 'hash step'(Whole, 268435459, 0)
    end;
'old hash'([C | T], H) when is_integer(C), C >= 0, C < 256 -> 'old hash of tail'(T, 'hash step'(H, 268439161, C));
'old hash'([X | T], H) -> 'old hash of tail'(T, 'old hash'(X, H));
'old hash'({'$map', L}, _) -> erlang:'phash of a map'(L);
'old hash'({'$binary', L}, _) -> erlang:'phash of a binary'(L);
'old hash'(T, H) when is_tuple(T) -> 'hash step'('old hash of each'(tuple_to_list(T), H), 268439627, tuple_size(T));
'old hash'(T, _) -> erlang:'phash of a large integer, a pid, a reference or a function'(T).

'old hash of tail'([_ | _] = T, H) -> 'old hash'(T, H);
'old hash of tail'(T, H) -> 'hash step'('old hash'(T, H), 268437511, 0).

'old hash of each'([X | T], H) -> 'old hash of each'(T, 'old hash'(X, H));
'old hash of each'([], H) -> H.

'hash bytes'(_, 0, H) -> H;
'hash bytes'(N, Count, H) -> 'hash bytes'(N div 256, Count - 1, 'hash step'(H, 268439161, N band 255)).

'hash step'(H, Factor, Term) -> (H * Factor + Term) band 16#FFFFFFFF.
