%% Formats of the module io_lib, and what the module io checks of them: it writes nothing here. The lists are as deep as
%% those of the real machine. What has another text in each run, as a pid, and what would fill several lines stops.
-module(printing).
-compile([export_all, nowarn_export_all]).

'io_lib:nl'() -> "\n".
'io_lib:fwrite'(Format, Arguments) -> 'io_lib:format'(Format, Arguments).
'io_lib:format'(Format, Arguments) ->
    Parts = 'io scan'(Format, Arguments),
    'io joined'(Parts, lists:any(fun 'io is large'/1, Parts), 0).

'io_lib:write'(T) -> 'io write'(T, latin1).
'io_lib:print'(T) -> 'io pretty'(T, 1, 80, latin1, true).
'io_lib:write_atom'(A) -> 'io atom'(A, unicode).
'io_lib:write_string'(Text) -> 'io quoted'(Text, $", unicode).

%% ---- output

'io:nl'() -> ok.
'io:nl'(Device) -> 'io device'(Device).

'io:write'(_) -> ok.
'io:write'(Device, _) -> 'io device'(Device).

'io:put_chars'(Chars) -> 'io accepts'(Chars).
'io:put_chars'(Device, Chars) -> 'io device'(Device), 'io accepts'(Chars).

'io:fwrite'(Format) -> 'io:format'(Format, []).
'io:fwrite'(Format, Arguments) -> 'io:format'(Format, Arguments).
'io:fwrite'(Device, Format, Arguments) -> 'io:format'(Device, Format, Arguments).

'io:format'(Format) -> 'io:format'(Format, []).
'io:format'(Device, Format, Arguments) -> 'io device'(Device), 'io:format'(Format, Arguments).
'io:format'(Format, Arguments) -> 'io accepts'(['io accepted'(Part) || Part <- 'io scan'(Format, Arguments)]).

%% A process is no device here, but its own leader.
'io device'(Device) ->
    case lists:member(Device, [standard_io, standard_error, user]) orelse Device =:= group_leader() of
        true -> ok;
        false when is_pid(Device); is_atom(Device) -> erlang:'output to another device'(Device);
        false -> error(function_clause)
    end.

%% A text in which only what may fail is made: any term can be written, and any atom.
'io accepted'({$w, [_], F, Side, P, Pad, _, _}) -> 'io field'("", F, Side, P, Pad);
'io accepted'({$p, [_], _, right, _, _, _, _}) -> "";
'io accepted'({$W, [_, Depth], F, Side, P, Pad, _, _}) when is_integer(Depth) -> 'io field'("", F, Side, P, Pad);
'io accepted'({$P, [_, Depth], _, right, _, _, _, _}) when is_integer(Depth) -> "";
'io accepted'({$s, [A], F, Side, P, Pad, Encoding, _}) when is_atom(A) -> 'io string'("", F, Side, P, Pad, Encoding);
'io accepted'(Part) when is_tuple(Part) -> 'io part'(Part, 0);
'io accepted'(Part) -> Part.

'io accepts'(Chars) ->
    case 'io is unicode'(Chars) of
        true -> ok;
        false -> error(badarg)
    end.

'io is unicode'([C | T]) when is_integer(C) -> 'io is character'(C) andalso 'io is unicode'(T);
'io is unicode'([H | T]) -> 'io is unicode'(H) andalso 'io is unicode'(T);
'io is unicode'({'$binary', L}) -> 'io characters'(L) =/= none;
'io is unicode'(L) -> L =:= [].

'io is character'(C) -> C >= 0 andalso C < 16#D800 orelse C > 16#DFFF andalso C =< 16#10FFFF.

%% The characters of bytes of UTF-8, or none where they are no such bytes.
'io characters'([A | T]) when A < 16#80 -> 'io further'(A, T);
'io characters'([A, B | T]) when A >= 16#C2, A < 16#E0, B band 16#C0 =:= 16#80 -> 'io further'((A - 16#C0) * 64 + B - 128, T);
'io characters'([A, B, C | T]) when A >= 16#E0, A < 16#F0, B band 16#C0 =:= 16#80, C band 16#C0 =:= 16#80 ->
    'io further'('io wide'(16#800, ((A - 16#E0) * 64 + B - 128) * 64 + C - 128), T);
'io characters'([A, B, C, D | T]) when A >= 16#F0, A < 16#F5, B band 16#C0 =:= 16#80, C band 16#C0 =:= 16#80, D band 16#C0 =:= 16#80 ->
    'io further'('io wide'(16#10000, (((A - 16#F0) * 64 + B - 128) * 64 + C - 128) * 64 + D - 128), T);
'io characters'(L) -> case L of [] -> []; _ -> none end.

%% What has a shorter form is no character.
'io wide'(Least, C) -> case C >= Least andalso 'io is character'(C) of true -> C; false -> none end.

'io further'(none, _) -> none;
'io further'(C, T) -> case 'io characters'(T) of none -> none; L -> [C | L] end.

%% ---- the format: characters, lists of them, and {Control, Arguments, Width, Side, Precision, Pad, Encoding, Strings}

'io scan'(Format, Arguments) when is_atom(Format) -> 'io scan'(atom_to_list(Format), Arguments);
'io scan'({'$binary', Format}, Arguments) -> 'io parts'(Format, Arguments);
'io scan'(Format, Arguments) when is_list(Format) -> 'io parts'(Format, Arguments);
'io scan'(_, _) -> error(badarg).

'io parts'([$~ | Format], Arguments) ->
    {Width, Side, Format1, Arguments1} = 'io width'(Format, Arguments),
    {Precision, Format2, Arguments2} = 'io precision'(Format1, Arguments1),
    {Pad, Format3, Arguments3} = 'io pad'(Format2, Arguments2),
    {Encoding, Strings, Format4} = 'io modifiers'(Format3, latin1, true),
    {Control, Taken, Format5, Arguments4} = 'io control'(Format4, Arguments3),
    [{Control, Taken, Width, Side, Precision, Pad, Encoding, Strings} | 'io parts'(Format5, Arguments4)];
'io parts'([C | Format], Arguments) when is_integer(C) -> [C | 'io parts'(Format, Arguments)];
'io parts'([{'$binary', L} | _], _) -> erlang:'a binary in a format'(L);
'io parts'([L | Format], Arguments) when is_list(L) ->
    case 'io_lib:deep_char_list'(L) of
        true -> [L | 'io parts'(Format, Arguments)];
        false -> erlang:'a list in a format'(L)
    end;
'io parts'([], []) -> [];
'io parts'(_, _) -> error(badarg).

'io width'([$- | Format], Arguments) ->
    case 'io number'(Format, Arguments) of
        {N, Format1, Arguments1} when is_integer(N) -> 'io side'(-N, Format1, Arguments1);
        _ -> error(badarg)
    end;
'io width'(Format, Arguments) ->
    {N, Format1, Arguments1} = 'io number'(Format, Arguments),
    'io side'(N, Format1, Arguments1).

'io side'(N, Format, Arguments) when is_integer(N), N < 0 -> {-N, left, Format, Arguments};
'io side'(N, Format, Arguments) -> {N, right, Format, Arguments}.

'io precision'([$. | Format], Arguments) -> 'io number'(Format, Arguments);
'io precision'(Format, Arguments) -> {none, Format, Arguments}.

'io number'([$* | Format], [N | Arguments]) when is_integer(N) -> {N, Format, Arguments};
'io number'([C | Format], Arguments) when is_integer(C), C >= $0, C =< $9 -> 'io digits'(Format, Arguments, C - $0);
'io number'(Format, Arguments) -> {none, Format, Arguments}.

'io digits'([C | Format], Arguments, N) when is_integer(C), C >= $0, C =< $9 -> 'io digits'(Format, Arguments, 10 * N + C - $0);
'io digits'(Format, Arguments, N) -> {N, Format, Arguments}.

'io pad'([$., $* | Format], [Pad | Arguments]) when is_integer(Pad) -> {Pad, Format, Arguments};
'io pad'([$., $* | _], [Pad | _]) -> erlang:'a pad that is no character'(Pad);
'io pad'([$., Pad | Format], Arguments) when is_integer(Pad) -> {Pad, Format, Arguments};
'io pad'(Format, Arguments) -> {$\s, Format, Arguments}.

'io modifiers'([$t | Format], _, Strings) -> 'io modifiers'(Format, unicode, Strings);
'io modifiers'([$l | Format], Encoding, _) -> 'io modifiers'(Format, Encoding, false);
'io modifiers'(Format, Encoding, Strings) -> {Encoding, Strings, Format}.

'io control'([C | Format], Arguments) when C =:= $~, is_list(Arguments); C =:= $n, is_list(Arguments) -> {C, [], Format, Arguments};
'io control'([C | Format], [A | Arguments]) ->
    case {lists:member(C, "wpsbB+#ciefg"), lists:member(C, "xXWP"), Arguments} of
        {true, _, _} -> {C, [A], Format, Arguments};
        {_, true, [Second | Rest]} -> {C, [A, Second], Format, Rest};
        _ -> error(badarg)
    end;
'io control'(_, _) -> error(badarg).

%% ---- the text. Where there are large parts (of ~w, ~p and ~s) each of them stays a list in the list.

'io is large'({Control, [A], _, _, _, _, _, _}) -> Control =:= $w orelse Control =:= $p orelse Control =:= $s andalso not is_atom(A);
'io is large'(_) -> false.

'io joined'([Part | Parts], Large, Column) when is_tuple(Part) ->
    Text = 'io part'(Part, Column),
    Column1 = case Large of true -> 'io column'(Text, Column); false -> 0 end,
    case 'io is large'(Part) of
        true -> [Text | 'io joined'(Parts, Large, Column1)];
        false -> lists:flatten(Text) ++ 'io joined'(Parts, Large, Column1)
    end;
'io joined'([Part | Parts], true, Column) -> [Part | 'io joined'(Parts, true, 'io column'([Part], Column))];
'io joined'([Part | Parts], false, _) -> [Part | 'io joined'(Parts, false, 0)];
'io joined'([], _, _) -> [].

'io column'([$\n | T], _) -> 'io column'(T, 0);
'io column'([$\t | T], Column) -> 'io column'(T, (Column + 8) div 8 * 8);
'io column'([C | T], Column) when is_integer(C) -> 'io column'(T, Column + 1);
'io column'([H | T], Column) -> 'io column'(T, 'io column'(H, Column));
'io column'([], Column) -> Column.

'io part'({$w, [T], F, Side, P, Pad, Encoding, _}, _) -> 'io field'('io write'(T, Encoding), F, Side, P, Pad);
'io part'({$p, [T], F, right, P, _, Encoding, Strings}, Column) ->
    'io pretty'(T, case P of none -> Column + 1; _ -> P end, case F of none -> 80; _ -> F end, Encoding, Strings);
'io part'({$s, [T], F, Side, P, Pad, Encoding, _}, _) -> 'io string'('io chars'(T, Encoding), F, Side, P, Pad, Encoding);
'io part'({$b, [N], F, Side, P, Pad, _, _}, _) when is_integer(N) -> 'io based'(N, "", F, Side, P, Pad, true);
'io part'({$B, [N], F, Side, P, Pad, _, _}, _) when is_integer(N) -> 'io based'(N, "", F, Side, P, Pad, false);
'io part'({$x, [N, Prefix], F, Side, P, Pad, _, _}, _) when is_integer(N) -> 'io based'(N, ['io prefix'(Prefix)], F, Side, P, Pad, true);
'io part'({$X, [N, Prefix], F, Side, P, Pad, _, _}, _) when is_integer(N) -> 'io based'(N, ['io prefix'(Prefix)], F, Side, P, Pad, false);
'io part'({$+, [N], F, Side, P, Pad, _, _}, _) when is_integer(N) -> 'io based'(N, ['io base'(P)], F, Side, P, Pad, true);
'io part'({$#, [N], F, Side, P, Pad, _, _}, _) when is_integer(N) -> 'io based'(N, ['io base'(P)], F, Side, P, Pad, false);
'io part'({$c, [C], F, Side, P, Pad, unicode, _}, _) when is_integer(C) -> 'io repeated'(C, F, Side, P, Pad);
'io part'({$c, [C], F, Side, P, Pad, latin1, _}, _) when is_integer(C) -> 'io repeated'(C band 255, F, Side, P, Pad);
'io part'({$~, [], F, Side, P, Pad, _, _}, _) -> 'io repeated'($~, F, Side, P, Pad);
'io part'({$n, [], none, _, _, _, _, _}, _) -> "\n";
'io part'({$n, [], F, right, _, _, _, _}, _) -> 'io times'($\n, F);
'io part'({$i, [_], _, _, _, _, _, _}, _) -> [];
'io part'({Control, [T, Depth], _, _, _, _, _, _}, _) when Control =:= $W, is_integer(Depth); Control =:= $P, is_integer(Depth) ->
    erlang:'a text of a depth'(T);
%% (no value is a float, so ~e, ~f and ~g always fail)
'io part'(_, _) -> error(badarg).

'io chars'(A, Encoding) when is_atom(A) -> 'io chars'(atom_to_list(A), Encoding);
'io chars'(L, Encoding) -> 'io chars of list'(L, Encoding).

'io chars of list'([C | T], Encoding) when is_integer(C), C >= 0, C < 256; is_integer(C), C >= 0, Encoding =:= unicode ->
    [C | 'io chars of list'(T, Encoding)];
'io chars of list'([{'$binary', _} = H | T], Encoding) -> ['io chars of list'(H, Encoding) | 'io chars of list'(T, Encoding)];
'io chars of list'({'$binary', L}, latin1) -> L;
'io chars of list'({'$binary', L}, unicode) -> case 'io characters'(L) of none -> L; Chars -> Chars end;
'io chars of list'([H | T], Encoding) when is_list(H) -> ['io chars of list'(H, Encoding) | 'io chars of list'(T, Encoding)];
'io chars of list'([], _) -> [];
'io chars of list'(_, _) -> error(badarg).

'io base'(none) -> "10#";
'io base'(Base) -> [integer_to_list(Base), $#].

'io prefix'(A) when is_atom(A) -> atom_to_list(A);
'io prefix'(L) -> case 'io_lib:deep_char_list'(L) of true -> L; false -> error(badarg) end.

'io based'(N, Prefix, F, Side, P, Pad, Lower) ->
    Digits = case integer_to_list(N, case P of none -> 10; _ -> P end) of [$- | Ds] -> Ds; Ds -> Ds end,
    Text = Prefix ++ case Lower of true -> 'io lower'(Digits); false -> Digits end,
    'io field'(case N < 0 of true -> [$- | Text]; false -> Text end, F, Side, none, Pad).

'io lower'([C | T]) when C >= $A, C =< $Z -> [C + 32 | 'io lower'(T)];
'io lower'([C | T]) -> [C | 'io lower'(T)];
'io lower'([]) -> [].

%% ---- widths

'io length'([C | _] = L) when is_integer(C), C > 255 -> erlang:'the width of a letter past 255'(L);
'io length'([C | T]) when is_integer(C) -> 1 + 'io length'(T);
'io length'([H | T]) -> 'io length'(H) + 'io length'(T);
'io length'([]) -> 0.

%% What is too long for a field of a term becomes stars.
'io field'(Text, none, _, none, _) -> Text;
'io field'(Text, none, Side, P, Pad) -> 'io field'(Text, P, Side, P, Pad);
'io field'(Text, F, Side, P, Pad) ->
    Length = 'io length'(Text),
    Most = min(Length, case P of none -> F; _ -> min(P, F) end),
    case Length > Most of
        true -> 'io padded'('io times'($*, Most), 'io times'(Pad, F - Most), Side);
        false -> 'io padded'(Text, 'io times'(Pad, F - Length), Side)
    end.

%% What is too long for a field of a string is cut off.
'io string'(Text, none, _, none, _, _) -> Text;
'io string'(Text, F, Side, none, Pad, Encoding) -> 'io string field'(Text, F, Side, Pad, Encoding);
'io string'(Text, none, _, P, Pad, Encoding) -> 'io string field'(Text, P, left, Pad, Encoding);
'io string'(Text, F, Side, F, Pad, Encoding) -> 'io string field'(Text, F, Side, Pad, Encoding);
'io string'(Text, F, Side, P, Pad, Encoding) when F > P ->
    Rest = 'io times'(Pad, F - P),
    case 'io length'(Text) of
        N when N > P -> 'io padded'('io cut'(Text, P, Encoding), Rest, Side);
        N when N < P -> 'io padded'([Text | 'io times'(Pad, P - N)], Rest, Side);
        _ -> 'io padded'(Text, Rest, Side)
    end;
'io string'(_, _, _, _, _, _) -> error(badarg).

'io string field'(Text, F, Side, Pad, Encoding) ->
    case 'io length'(Text) of
        N when N > F -> 'io cut'(Text, F, Encoding);
        N when N < F -> 'io padded'(Text, 'io times'(Pad, F - N), Side);
        _ -> Text
    end.

'io cut'(Text, N, latin1) when N >= 0 -> lists:sublist(lists:flatten(Text), N);
'io cut'(Text, N, unicode) when N >= 0 ->
    Flat = lists:flatten(Text),
    case lists:any(fun(C) -> C > 127 orelse C =:= $\r end, Flat) of
        true -> erlang:'a part of a text with letters past 127'(Text);
        false -> lists:sublist(Flat, N)
    end.

'io padded'(Text, [], _) -> Text;
'io padded'(Text, Pad, left) -> [Text | Pad];
'io padded'(Text, Pad, right) -> [Pad | Text].

'io repeated'(C, none, _, none, _) -> [C];
'io repeated'(C, F, _, none, _) -> 'io times'(C, F);
'io repeated'(C, none, _, P, _) -> 'io times'(C, P);
'io repeated'(C, F, Side, P, Pad) when F >= P -> 'io padded'('io times'(C, P), 'io times'(Pad, F - P), Side);
'io repeated'(_, _, _, _, _) -> error(badarg).

'io times'(_, 0) -> [];
'io times'(C, 1) -> [C];
'io times'(C, 2) -> [C, C];
'io times'(C, 3) -> [C, C, C];
'io times'(C, N) when N > 3 ->
    Half = 'io times'(C, N div 2),
    case N rem 2 of
        0 -> [Half | Half];
        1 -> [C, Half | Half]
    end;
'io times'(_, _) -> error(badarg).

%% ---- terms as ~w writes them

'io write'(N, _) when is_integer(N) -> integer_to_list(N);
'io write'(A, Encoding) when is_atom(A) -> 'io atom'(A, Encoding);
'io write'([], _) -> "[]";
'io write'({}, _) -> "{}";
'io write'([H | T], Encoding) -> [$[, ['io write'(H, Encoding) | 'io write tail'(T, Encoding)], $]];
'io write'({'$map', []}, _) -> "#{}";
'io write'({'$map', [P | Pairs]}, Encoding) ->
    'io is small'([P | Pairs]),
    [$#, ${, ['io write pair'(P, Encoding) | 'io write pairs'(Pairs, Encoding)], $}];
'io write'({'$binary', L}, _) -> [$<, $<, 'io bytes'(L), $>, $>];
'io write'(T, Encoding) when is_tuple(T) ->
    [H | Rest] = tuple_to_list(T),
    [${, ['io write'(H, Encoding) | 'io write items'(Rest, Encoding)], $}];
'io write'(T, _) -> 'io nameless'(T).

'io bytes'([B]) -> [integer_to_list(B)];
'io bytes'([B | T]) -> [integer_to_list(B), $, | 'io bytes'(T)];
'io bytes'([]) -> [].

'io write tail'([], _) -> "";
'io write tail'([H | T], Encoding) -> [$,, 'io write'(H, Encoding) | 'io write tail'(T, Encoding)];
'io write tail'(T, Encoding) -> [$|, 'io write'(T, Encoding)].

'io write items'([H | T], Encoding) -> [$,, 'io write'(H, Encoding) | 'io write items'(T, Encoding)];
'io write items'([], _) -> "".

'io write pair'({K, V}, Encoding) -> ['io write'(K, Encoding), " => ", 'io write'(V, Encoding)].

'io write pairs'([P | T], Encoding) -> [$,, 'io write pair'(P, Encoding) | 'io write pairs'(T, Encoding)];
'io write pairs'([], _) -> "".

%% Keys of a larger map are in no order.
'io is small'(Pairs) when length(Pairs) > 32 -> erlang:'a text of a map of more than 32 keys'(Pairs);
'io is small'(_) -> ok.

'io nameless'(T) when is_pid(T) -> erlang:'the text of a pid'(T);
'io nameless'(T) when is_reference(T) -> erlang:'the text of a reference'(T);
'io nameless'(T) when is_function(T) -> erlang:'the text of a function'(T);
'io nameless'(T) -> erlang:'the text of a term of this kind'(T).

'io atom'(A, Encoding) ->
    Text = atom_to_list(A),
    case 'io is plain'(Text) of
        true -> Text;
        false -> 'io quoted'(Text, $', Encoding)
    end.

'io is plain'([C | T] = Text) ->
    (C >= $a andalso C =< $z orelse C >= 223 andalso C =< 255 andalso C =/= 247) andalso lists:all(fun 'io is of name'/1, T)
        andalso not lists:member(Text, ["after", "begin", "case", "try", "cond", "catch", "andalso", "orelse", "end", "fun", "if", "let",
                                        "of", "receive", "when", "bnot", "not", "div", "rem", "band", "and", "bor", "bxor", "bsl", "bsr",
                                        "or", "xor"]);
'io is plain'([]) -> false.

'io is of name'(C) ->
    C >= $a andalso C =< $z orelse C >= $A andalso C =< $Z orelse C >= $0 andalso C =< $9 orelse C =:= $_ orelse C =:= $@
        orelse C >= 192 andalso C =< 255 andalso C =/= 215 andalso C =/= 247.

'io quoted'(Text, Quote, Encoding) -> [Quote | 'io escaped'(Text, Quote, Encoding)].

'io escaped'([], Quote, _) -> [Quote];
'io escaped'([C | T], Quote, Encoding) -> 'io character'(C, Quote, Encoding) ++ 'io escaped'(T, Quote, Encoding).

'io character'(C, Quote, _) when C =:= Quote; C =:= $\\ -> [$\\, C];
'io character'(C, _, latin1) when C > 255 -> "\\x{" ++ integer_to_list(C, 16) ++ "}";
'io character'(C, _, _) when C >= 32, C =< 126; C >= 160 -> [C];
'io character'(C, _, _) ->
    case lists:keyfind(C, 1, [{$\n, $n}, {$\r, $r}, {$\t, $t}, {$\v, $v}, {$\b, $b}, {$\f, $f}, {$\e, $e}, {$\d, $d}]) of
        {_, Letter} -> [$\\, Letter];
        false -> [$\\, C div 64 + $0, C div 8 rem 8 + $0, C rem 8 + $0]
    end.

%% ---- terms as ~p writes them in one line

'io pretty'(A, _, _, Encoding, _) when is_atom(A) -> 'io atom'(A, Encoding);
'io pretty'(T, Column, Width, Encoding, Strings) when is_tuple(T); is_list(T); is_map(T); is_binary(T) ->
    Text = 'io line'(T, Encoding, Strings),
    case Width =:= 0 orelse 'io is one'(T, Encoding, Strings) orelse 'io length'(Text) < Width - max(Column, 1) of
        true -> Text;
        false -> erlang:'a text of ~p that fills several lines'(T)
    end;
'io pretty'(T, _, _, _, _) -> 'io write'(T, latin1).

%% What is never broken into lines.
'io is one'([], _, _) -> true;
'io is one'({}, _, _) -> true;
'io is one'({'$map', L}, _, _) -> L =:= [];
'io is one'({'$binary', L}, Encoding, Strings) -> L =:= [] orelse Strings andalso 'io shown bytes'(L, Encoding) =/= none;
'io is one'(L, _, Strings) -> Strings andalso is_list(L) andalso 'io_lib:printable_latin1_list'(L).

%% How the bytes of a binary are shown as characters: {Characters, what comes after them}, or none.
'io shown bytes'(L, latin1) -> 'io shown'(L, ">>");
'io shown bytes'(L, unicode) ->
    case 'io characters'(L) of
        none -> 'io shown'(L, ">>");
        L -> 'io shown'(L, ">>");
        Chars -> 'io shown'(Chars, "/utf8>>")
    end.

'io shown'(L, Behind) -> case 'io_lib:printable_latin1_list'(L) of true -> {L, Behind}; false -> none end.

'io line'([], _, _) -> "[]";
'io line'({}, _, _) -> "{}";
'io line'({'$map', []}, _, _) -> "#{}";
'io line'({'$map', Pairs}, Encoding, Strings) ->
    'io is small'(Pairs),
    [$#, ${, 'io line items'([['io line'(K, Encoding, Strings), " => ", 'io line'(V, Encoding, Strings)] || {K, V} <- Pairs]), $}];
'io line'({'$binary', []}, _, _) -> "<<>>";
'io line'({'$binary', L} = T, Encoding, Strings) ->
    case Strings andalso 'io shown bytes'(L, Encoding) of
        {Chars, ">>"} -> [$<, $<, 'io quoted'(Chars, $", unicode), $>, $>];
        {Chars, Behind} -> [$<, $<, 'io quoted'(Chars, $", unicode), Behind];
        _ -> 'io write'(T, Encoding)
    end;
'io line'([_ | _] = L, Encoding, Strings) ->
    case Strings andalso 'io_lib:printable_latin1_list'(L) of
        true -> 'io quoted'(L, $", Encoding);
        false -> [$[, 'io line list'(L, Encoding, Strings), $]]
    end;
'io line'(T, Encoding, Strings) when is_tuple(T) ->
    [${, 'io line items'(['io line'(X, Encoding, Strings) || X <- tuple_to_list(T)]), $}];
'io line'(A, Encoding, _) when is_atom(A) -> 'io atom'(A, Encoding);
'io line'(T, _, _) -> 'io write'(T, latin1).

'io line list'([H | T], Encoding, Strings) -> ['io line'(H, Encoding, Strings) | 'io line tail'(T, Encoding, Strings)].

'io line tail'([H | T], Encoding, Strings) -> [$,, 'io line'(H, Encoding, Strings) | 'io line tail'(T, Encoding, Strings)];
'io line tail'([], _, _) -> [];
'io line tail'(T, Encoding, Strings) -> [$| | 'io line'(T, Encoding, Strings)].

'io line items'([H | T]) -> [H | 'io line more'(T)].
'io line more'([H | T]) -> [$,, H | 'io line more'(T)];
'io line more'([]) -> [].

%% ---- kinds of lists

'io_lib:printable_list'(L) -> 'io_lib:printable_latin1_list'(L).
'io_lib:printable_latin1_list'([C | T]) ->
    is_integer(C) andalso (C >= 32 andalso C =< 126 orelse C >= 160 andalso C =< 255 orelse C >= 8 andalso C =< 13 orelse C =:= 27)
        andalso 'io_lib:printable_latin1_list'(T);
'io_lib:printable_latin1_list'(L) -> L =:= [].

'io_lib:latin1_char_list'([C | T]) -> is_integer(C) andalso C >= 0 andalso C =< 255 andalso 'io_lib:latin1_char_list'(T);
'io_lib:latin1_char_list'(L) -> L =:= [].

'io_lib:char_list'([C | T]) -> 'io is plain character'(C) andalso 'io_lib:char_list'(T);
'io_lib:char_list'(L) -> L =:= [].

'io_lib:deep_char_list'([H | T]) when is_list(H) -> 'io_lib:deep_char_list'(H) andalso 'io_lib:deep_char_list'(T);
'io_lib:deep_char_list'([C | T]) -> 'io is plain character'(C) andalso 'io_lib:deep_char_list'(T);
'io_lib:deep_char_list'(L) -> L =:= [].

'io is plain character'(C) -> is_integer(C) andalso 'io is character'(C) andalso C =/= 16#FFFE andalso C =/= 16#FFFF.
