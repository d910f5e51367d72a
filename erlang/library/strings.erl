%% Functions of the module string. The older ones take lists of any items. The newer ones take flat lists of characters
%% below 128 without a carriage return, where each character is one of what a reader sees, and some of them take lists of
%% such lists. At other texts they stop.
-module(strings).
-compile([export_all, nowarn_export_all]).

%% ---- the older ones

'string:len'(S) -> length(S).
'string:concat'(A, B) -> A ++ B.

'string:chr'(S, C) when is_integer(C) -> 'string place'(S, C, 1).
'string place'([C | _], C, N) -> N;
'string place'([_ | T], C, N) -> 'string place'(T, C, N + 1);
'string place'([], _, _) -> 0.

'string:rchr'(S, C) when is_integer(C) -> 'string last place'(S, C, 1, 0).
'string last place'([C | T], C, N, _) -> 'string last place'(T, C, N + 1, N);
'string last place'([_ | T], C, N, Last) -> 'string last place'(T, C, N + 1, Last);
'string last place'([], _, _, Last) -> Last.

'string:str'(S, Sub) when is_list(Sub) -> 'string part place'(S, Sub, 1).
'string part place'([C | S], [C | Sub], N) ->
    case lists:prefix(Sub, S) of
        true -> N;
        false -> 'string part place'(S, [C | Sub], N + 1)
    end;
'string part place'([_ | S], Sub, N) -> 'string part place'(S, Sub, N + 1);
'string part place'([], _, _) -> 0.

'string:rstr'(S, Sub) when is_list(Sub) -> 'string last part place'(S, Sub, 1, 0).
'string last part place'([C | S], [C | Sub], N, Last) ->
    case lists:prefix(Sub, S) of
        true -> 'string last part place'(S, [C | Sub], N + 1, N);
        false -> 'string last part place'(S, [C | Sub], N + 1, Last)
    end;
'string last part place'([_ | S], Sub, N, Last) -> 'string last part place'(S, Sub, N + 1, Last);
'string last part place'([], _, _, Last) -> Last.

'string:span'(S, Cs) when is_list(Cs) -> 'string run'(S, Cs, true, 0).
'string:cspan'(S, Cs) when is_list(Cs) -> 'string run'(S, Cs, false, 0).
'string run'([C | S], Cs, Inside, N) ->
    case lists:member(C, Cs) of
        Inside -> 'string run'(S, Cs, Inside, N + 1);
        _ -> N
    end;
'string run'([], _, _, N) -> N.

'string:substr'(S, 1) when is_list(S) -> S;
'string:substr'(S, From) when is_integer(From), From > 1 -> 'string from'(S, From).
'string:substr'(S, From, Length) when is_integer(From), From >= 1, is_integer(Length), Length >= 0 ->
    'string first'('string from'(S, From), Length).
'string first'([C | S], Length) when Length > 0 -> [C | 'string first'(S, Length - 1)];
'string first'(S, _) when is_list(S) -> [].
'string from'(S, 1) when is_list(S) -> S;
'string from'([_ | S], From) -> 'string from'(S, From - 1).

'string:sub_string'(S, From) -> 'string:substr'(S, From).
'string:sub_string'(S, From, To) -> 'string:substr'(S, From, To - From + 1).

'string:tokens'(S, Separators) ->
    case Separators of
        [] -> case S of [] -> []; [_ | _] -> [S] end;
        [_ | _] -> 'string tokens'(lists:reverse(S), Separators, [])
    end.
'string tokens'([C | S], Separators, Found) ->
    case lists:member(C, Separators) of
        true -> 'string tokens'(S, Separators, Found);
        false -> 'string token'(S, Separators, Found, [C])
    end;
'string tokens'([], _, Found) -> Found.
'string token'([C | S], Separators, Found, Token) ->
    case lists:member(C, Separators) of
        true -> 'string tokens'(S, Separators, [Token | Found]);
        false -> 'string token'(S, Separators, Found, [C | Token])
    end;
'string token'([], _, Found, Token) -> [Token | Found].

'string:chars'(C, N) -> 'string:chars'(C, N, []).
'string:chars'(C, N, Tail) when N > 0 -> 'string:chars'(C, N - 1, [C | Tail]);
'string:chars'(C, 0, Tail) when is_integer(C) -> Tail.

'string:copies'(S, N) when is_list(S), is_integer(N), N >= 0 -> 'string copies'(S, N, []).
'string copies'(_, 0, Copies) -> Copies;
'string copies'(S, N, Copies) -> 'string copies'(S, N - 1, S ++ Copies).

'string:words'(S) -> 'string:words'(S, $\s).
'string:words'(S, C) when is_integer(C) -> 'string words'('string:strip'(S, both, C), C, 0).
'string words'([], _, N) -> N + 1;
'string words'([C | S], C, N) -> 'string words'('string:strip'(S, left, C), C, N + 1);
'string words'([_ | S], C, N) -> 'string words'(S, C, N).

'string:sub_word'(S, Index) -> 'string:sub_word'(S, Index, $\s).
'string:sub_word'(S, Index, C) when is_integer(Index), is_integer(C) ->
    case 'string:words'(S, C) < Index of
        true -> [];
        false -> 'string word'('string:strip'(S, left, C), Index, C, 1, [])
    end.
'string word'([], _, _, _, Word) -> lists:reverse(Word);
'string word'([C | _], Index, C, Index, Word) -> lists:reverse(Word);
'string word'([H | S], Index, C, Index, Word) -> 'string word'(S, Index, C, Index, [H | Word]);
'string word'([C | S], Index, C, N, Word) when N < Index -> 'string word'('string:strip'(S, left, C), Index, C, N + 1, Word);
'string word'([_ | S], Index, C, N, Word) when N < Index -> 'string word'(S, Index, C, N, Word).

'string:strip'(S) -> 'string:strip'(S, both).
'string:strip'(S, Side) -> 'string:strip'(S, Side, $\s).
'string:strip'(S, right, C) -> 'string strip right'(S, C);
'string:strip'(S, left, C) -> 'string strip left'(S, C);
'string:strip'(S, both, C) -> 'string strip right'('string strip left'(S, C), C).
'string strip left'([C | S], C) -> 'string strip left'(S, C);
'string strip left'([_ | _] = S, C) when is_integer(C) -> S;
'string strip left'([], C) when is_integer(C) -> [].
'string strip right'([C | S], C) -> case 'string strip right'(S, C) of [] -> []; T -> [C | T] end;
'string strip right'([H | S], C) -> [H | 'string strip right'(S, C)];
'string strip right'([], C) when is_integer(C) -> [].

'string:left'(S, Length) when is_integer(Length) -> 'string:left'(S, Length, $\s).
'string:left'(S, Length, C) when is_integer(C) ->
    case length(S) of
        N when N > Length -> 'string:substr'(S, 1, Length);
        N when N < Length -> S ++ 'string:chars'(C, Length - N);
        _ -> S
    end.

'string:right'(S, Length) when is_integer(Length) -> 'string:right'(S, Length, $\s).
'string:right'(S, Length, C) when is_integer(C) ->
    case length(S) of
        N when N > Length -> 'string:substr'(S, N - Length + 1);
        N when N < Length -> 'string:chars'(C, Length - N, S);
        _ -> S
    end.

'string:centre'(S, Length) when is_integer(Length) -> 'string:centre'(S, Length, $\s).
'string:centre'(S, 0, C) when is_list(S), is_integer(C) -> [];
'string:centre'(S, Length, C) when is_integer(C) ->
    case length(S) of
        N when N > Length -> 'string:substr'(S, (N - Length) div 2 + 1, Length);
        N when N < Length ->
            Left = (Length - N) div 2,
            'string:chars'(C, Left, S ++ 'string:chars'(C, Length - N - Left));
        _ -> S
    end.

'string:to_upper'(S) when is_list(S) -> ['string upper'(C) || C <- S];
'string:to_upper'(C) when is_integer(C) -> 'string upper'(C).
'string upper'(C) when is_integer(C), C >= $a, C =< $z; is_integer(C), C >= 224, C =< 246; is_integer(C), C >= 248, C =< 254 -> C - 32;
'string upper'(C) -> C.

'string:to_lower'(S) when is_list(S) -> ['string lower'(C) || C <- S];
'string:to_lower'(C) when is_integer(C) -> 'string lower'(C).
'string lower'(C) when is_integer(C), C >= $A, C =< $Z; is_integer(C), C >= 192, C =< 214; is_integer(C), C >= 216, C =< 222 -> C + 32;
'string lower'(C) -> C.

'string:join'([], Separator) when is_list(Separator) -> [];
'string:join'([H | T], Separator) -> H ++ lists:append([Separator ++ S || S <- T]).

%% ---- the newer ones

%% The same text, where its characters are those that are known here.
'string text'(S) ->
    case 'string is plain'(S) of
        true -> S;
        false -> erlang:'a string of other than characters below 128'(S)
    end.

%% The text of a list of lists, for what only looks at the characters.
'string flat text'(S) ->
    case io_lib:deep_char_list(S) of
        true -> 'string text'(lists:flatten(S));
        false -> 'string text'(S)
    end.

%% What is done at another side than those that are known depends on the text.
'string side'(Side) -> erlang:'a side of a string'(Side).

'string is plain'([C | T]) -> is_integer(C) andalso C >= 0 andalso C < 128 andalso C =/= $\r andalso 'string is plain'(T);
'string is plain'(S) -> S =:= [].

'string:is_empty'([H | T]) -> 'string:is_empty'(H) andalso 'string:is_empty'(T);
'string:is_empty'({'$binary', L}) -> L =:= [];
'string:is_empty'(S) -> S =:= [].

'string:length'(S) -> length('string flat text'(S)).
'string:to_graphemes'(S) -> 'string flat text'(S).
'string:reverse'(S) -> lists:reverse('string flat text'(S)).
'string:next_codepoint'(S) -> 'string text'(S).
'string:next_grapheme'(S) -> 'string text'(S).

'string:equal'(A, B) -> 'string flat text'(A) =:= 'string flat text'(B).
'string:equal'(A, B, false) -> 'string:equal'(A, B);
'string:equal'(A, B, true) -> 'string:to_lower'('string flat text'(A)) =:= 'string:to_lower'('string flat text'(B)).
'string:equal'(A, B, IgnoreCase, none) -> 'string:equal'(A, B, IgnoreCase);
'string:equal'(A, B, IgnoreCase, Form) when Form =:= nfc; Form =:= nfd; Form =:= nfkc; Form =:= nfkd -> 'string:equal'(A, B, IgnoreCase);
'string:equal'(_, _, _, Form) -> erlang:'a form of a string'(Form).

'string:slice'(S, From) when is_integer(From), From >= 0 -> 'string skip'('string text'(S), From).
'string:slice'(S, From, Length) when is_integer(From), From >= 0, is_integer(Length), Length > 0 ->
    'string first'('string:slice'(S, From), Length);
'string:slice'(S, From, infinity) -> 'string:slice'(S, From);
'string:slice'(S, _, 0) -> 'string text'(S), [].
'string skip'([_ | S], N) when N > 0 -> 'string skip'(S, N - 1);
'string skip'(S, _) -> S.

'string:pad'(S, Length) -> 'string:pad'(S, Length, trailing, $\s).
'string:pad'(S, Length, Side) -> 'string:pad'(S, Length, Side, $\s).
'string:pad'(S, Length, leading, C) when is_integer(Length) -> [lists:duplicate(max(0, Length - 'string:length'(S)), C), S];
'string:pad'(S, Length, trailing, C) when is_integer(Length) -> [S | lists:duplicate(max(0, Length - 'string:length'(S)), C)];
'string:pad'(S, Length, both, C) when is_integer(Length) ->
    Size = max(0, Length - 'string:length'(S)),
    Before = lists:duplicate(Size div 2, C),
    [Before, S, Before | lists:duplicate(Size rem 2, C)].

'string:trim'(S) -> 'string:trim'(S, both).
'string:trim'(S, Side) -> 'string:trim'(S, Side, "\t\n\v\f\s").
'string:trim'(S, _, []) -> S;
'string:trim'(S, leading, Cs) -> 'string drop'('string text'(S), 'string text'(Cs));
'string:trim'(S, trailing, Cs) -> 'string drop right'('string text'(S), 'string text'(Cs));
'string:trim'(S, both, Cs) -> 'string:trim'('string:trim'(S, leading, Cs), trailing, Cs).
'string drop'([C | T] = S, Cs) ->
    case lists:member(C, Cs) of
        true -> 'string drop'(T, Cs);
        false -> S
    end;
'string drop'([], _) -> [].
'string drop right'(S, Cs) -> lists:reverse('string drop'(lists:reverse(S), Cs)).

'string:chomp'(S) -> 'string:trim'(S, trailing, "\n").

'string:take'(S, Cs) -> 'string:take'(S, Cs, false, leading).
'string:take'(S, Cs, Others) -> 'string:take'(S, Cs, Others, leading).
'string:take'(S, Cs, Others, leading) when is_boolean(Others) -> 'string taken'('string text'(S), 'string text'(Cs), not Others);
'string:take'(S, Cs, Others, trailing) when is_boolean(Others) ->
    {Right, Left} = 'string taken'(lists:reverse('string text'(S)), 'string text'(Cs), not Others),
    {lists:reverse(Left), lists:reverse(Right)};
'string:take'(_, _, Others, Side) -> 'string side'({Others, Side}).
'string taken'(S, Cs, Inside) -> lists:splitwith(fun(C) -> lists:member(C, Cs) =:= Inside end, S).

'string:uppercase'(S) -> 'string:to_upper'('string text'(S)).
'string:lowercase'(S) -> 'string:to_lower'('string text'(S)).
'string:casefold'(S) -> 'string:lowercase'(S).
'string:titlecase'(S) ->
    case 'string text'(S) of
        [C | T] -> ['string upper'(C) | T];
        [] -> []
    end.

'string:prefix'(S, Prefix) -> 'string without'('string text'(S), 'string text'(Prefix)).
'string without'(S, []) -> S;
'string without'([C | S], [C | Prefix]) -> 'string without'(S, Prefix);
'string without'(_, _) -> nomatch.

'string:lexemes'(S, Separators) -> 'string lexemes'('string text'(S), 'string text'(Separators)).
'string lexemes'([], []) -> [];
'string lexemes'(S, []) -> [S];
'string lexemes'(S, Separators) -> 'string:tokens'(S, Separators).

'string:nth_lexeme'(S, N, Separators) when is_integer(N), N > 0 -> 'string nth'('string text'(S), N, 'string text'(Separators)).
'string nth'(S, 1, []) -> S;
'string nth'(S, N, Separators) ->
    {Lexeme, Rest} = 'string taken'('string drop'(S, Separators), Separators, false),
    case N of
        1 -> Lexeme;
        _ when Rest =:= [] -> [];
        _ -> 'string nth'(Rest, N - 1, Separators)
    end.

'string:find'(S, Pattern) -> 'string:find'(S, Pattern, leading).
'string:find'(S, Pattern, leading) -> 'string found'('string text'(S), 'string text'(Pattern));
'string:find'(S, Pattern, trailing) ->
    case 'string:rstr'('string text'(S), 'string text'(Pattern)) of
        _ when Pattern =:= [] -> S;
        0 -> nomatch;
        N -> 'string skip'(S, N - 1)
    end;
'string:find'(_, _, Side) -> 'string side'(Side).
'string found'(S, []) -> S;
'string found'(S, Pattern) ->
    case 'string:str'(S, Pattern) of
        0 -> nomatch;
        N -> 'string skip'(S, N - 1)
    end.

'string:split'(S, Pattern) -> 'string:split'(S, Pattern, leading).
'string:split'(S, Pattern, Where) -> 'string split'('string text'(S), 'string text'(Pattern), Where).
'string split'(S, [], _) -> [S];
'string split'(S, Pattern, leading) -> 'string cut at'(S, Pattern, 'string:str'(S, Pattern), fun(Rest) -> [Rest] end);
'string split'(S, Pattern, trailing) -> 'string cut at'(S, Pattern, 'string:rstr'(S, Pattern), fun(Rest) -> [Rest] end);
'string split'(S, Pattern, all) ->
    'string cut at'(S, Pattern, 'string:str'(S, Pattern), fun(Rest) -> 'string split'(Rest, Pattern, all) end);
'string split'(_, _, Side) -> 'string side'(Side).
'string cut at'(S, _, 0, _) -> [S];
'string cut at'(S, Pattern, N, Next) -> ['string first'(S, N - 1) | Next('string skip'(S, N - 1 + length(Pattern)))].

'string:replace'(S, Pattern, New) -> lists:join(New, 'string:split'(S, Pattern)).
'string:replace'(S, Pattern, New, Where) -> lists:join(New, 'string:split'(S, Pattern, Where)).

'string:to_integer'(S) ->
    case 'string text'(S) of
        [C | T] when C =:= $+; C =:= $- -> 'string number'(lists:splitwith(fun 'string is digit'/1, T), C);
        T -> 'string number'(lists:splitwith(fun 'string is digit'/1, T), $+)
    end.
'string number'({[], _}, _) -> {error, no_integer};
'string number'({Digits, Rest}, Sign) -> {list_to_integer([Sign | Digits]), Rest}.
'string is digit'(C) -> C >= $0 andalso C =< $9.
