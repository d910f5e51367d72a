%% Functions of the module lists, and a few of erlang, as plain Erlang: 'lists:map'/2 replaces
%% lists:map/2. Only what is called is copied into a converted module. Helpers have a
%% blank in their names, so that no call means one.
-module(list_functions).
-compile([export_all, nowarn_export_all]).

%% ---- with functions. What is no list is another error in some of them.

'lists:map'(F, L) when is_function(F, 1) -> case L of [_ | _] -> 'lists map'(F, L); [] -> [] end.
'lists map'(F, [H | T]) -> [F(H) | 'lists map'(F, T)];
'lists map'(_, []) -> [].

'lists:foreach'(F, L) when is_function(F, 1) -> 'lists foreach'(F, L).
'lists foreach'(F, [H | T]) -> F(H), 'lists foreach'(F, T);
'lists foreach'(_, []) -> ok.

'lists:foldl'(F, A, L) when is_function(F, 2) -> case L of [_ | _] -> 'lists foldl'(F, A, L); [] -> A end.
'lists foldl'(F, A, [H | T]) -> 'lists foldl'(F, F(H, A), T);
'lists foldl'(_, A, []) -> A.

'lists:foldr'(F, A, L) when is_function(F, 2) -> 'lists foldr'(F, A, L).
'lists foldr'(F, A, [H | T]) -> F(H, 'lists foldr'(F, A, T));
'lists foldr'(_, A, []) -> A.

'lists:filter'(F, L) when is_function(F, 1) -> [X || X <- L, F(X)].

'lists:filtermap'(F, L) when is_function(F, 1) -> 'lists filtermap'(F, L).
'lists filtermap'(F, [H | T]) ->
    case F(H) of
        true -> [H | 'lists filtermap'(F, T)];
        {true, V} -> [V | 'lists filtermap'(F, T)];
        false -> 'lists filtermap'(F, T)
    end;
'lists filtermap'(_, []) -> [].

'lists:flatmap'(F, L) when is_function(F, 1) -> 'lists flatmap'(F, L).
'lists flatmap'(F, [H | T]) -> F(H) ++ 'lists flatmap'(F, T);
'lists flatmap'(_, []) -> [].

'lists:mapfoldl'(F, A, L) when is_function(F, 2) -> 'lists mapfoldl'(F, A, L).
'lists mapfoldl'(F, A, [H | T]) ->
    {H1, A1} = F(H, A),
    {T1, A2} = 'lists mapfoldl'(F, A1, T),
    {[H1 | T1], A2};
'lists mapfoldl'(_, A, []) -> {[], A}.

'lists:mapfoldr'(F, A, L) when is_function(F, 2) -> 'lists mapfoldr'(F, A, L).
'lists mapfoldr'(F, A, [H | T]) ->
    {T1, A1} = 'lists mapfoldr'(F, A, T),
    {H1, A2} = F(H, A1),
    {[H1 | T1], A2};
'lists mapfoldr'(_, A, []) -> {[], A}.

'lists:partition'(F, L) when is_function(F, 1) -> 'lists partition'(F, L, [], []).
'lists partition'(F, [H | T], Yes, No) ->
    case F(H) of
        true -> 'lists partition'(F, T, [H | Yes], No);
        false -> 'lists partition'(F, T, Yes, [H | No])
    end;
'lists partition'(_, [], Yes, No) -> {lists:reverse(Yes), lists:reverse(No)}.

'lists:splitwith'(F, L) when is_function(F, 1) -> 'lists splitwith'(F, L, []).
'lists splitwith'(F, [H | T] = L, Taken) ->
    case F(H) of
        true -> 'lists splitwith'(F, T, [H | Taken]);
        false -> {lists:reverse(Taken), L}
    end;
'lists splitwith'(_, [], Taken) -> {lists:reverse(Taken), []}.

'lists:all'(F, L) when is_function(F, 1) -> case L of [_ | _] -> 'lists all'(F, L); [] -> true end.
'lists all'(F, [H | T]) -> case F(H) of true -> 'lists all'(F, T); false -> false end;
'lists all'(_, []) -> true.

'lists:any'(F, L) when is_function(F, 1) -> case L of [_ | _] -> 'lists any'(F, L); [] -> false end.
'lists any'(F, [H | T]) -> case F(H) of true -> true; false -> 'lists any'(F, T) end;
'lists any'(_, []) -> false.

'lists:search'(F, L) when is_function(F, 1) -> 'lists search'(F, L).
'lists search'(F, [H | T]) -> case F(H) of true -> {value, H}; false -> 'lists search'(F, T) end;
'lists search'(_, []) -> false.

'lists:takewhile'(F, L) when is_function(F, 1) -> 'lists takewhile'(F, L).
'lists takewhile'(F, [H | T]) -> case F(H) of true -> [H | 'lists takewhile'(F, T)]; false -> [] end;
'lists takewhile'(_, []) -> [].

'lists:dropwhile'(F, L) when is_function(F, 1) -> 'lists dropwhile'(F, L).
'lists dropwhile'(F, [H | T] = L) -> case F(H) of true -> 'lists dropwhile'(F, T); false -> L end;
'lists dropwhile'(_, []) -> [].

'lists:zipwith'(F, [A | T], [B | U]) -> [F(A, B) | 'lists:zipwith'(F, T, U)];
'lists:zipwith'(F, [], []) when is_function(F, 2) -> [].

'lists:zipwith3'(F, [A | T], [B | U], [C | V]) -> [F(A, B, C) | 'lists:zipwith3'(F, T, U, V)];
'lists:zipwith3'(F, [], [], []) when is_function(F, 3) -> [].

'lists:zf'(F, L) -> 'lists:filtermap'(F, L).

'lists:uniq'(F, L) when is_function(F, 1) -> 'lists uniq'(F, L, []).
'lists uniq'(F, [H | T], Seen) ->
    X = F(H),
    case lists:member(X, Seen) of
        true -> 'lists uniq'(F, T, Seen);
        false -> [H | 'lists uniq'(F, T, [X | Seen])]
    end;
'lists uniq'(_, [], _) -> [].

'lists:keymap'(F, N, [H | T]) -> [setelement(N, H, F(element(N, H))) | 'lists:keymap'(F, N, T)];
'lists:keymap'(F, N, []) when is_integer(N), N > 0, is_function(F, 1) -> [].

%% ---- numbers and places

'lists:seq'(From, To) when is_integer(From), is_integer(To), From - 1 =< To -> 'lists seq'(From, To, 1).

'lists:seq'(From, To, Step)
  when is_integer(From), is_integer(To), is_integer(Step),
       Step > 0 andalso From - Step =< To orelse Step < 0 andalso From - Step >= To orelse Step =:= 0 andalso From =:= To ->
    'lists seq'(From, To, Step);
'lists:seq'(_, _, _) -> error(badarg).
'lists seq'(From, To, 0) when From =:= To -> [From];
'lists seq'(From, To, Step) when Step > 0, From > To; Step < 0, From < To -> [];
'lists seq'(From, To, Step) -> [From | 'lists seq'(From + Step, To, Step)].

'lists:sum'(L) -> 'lists sum'(L, 0).
'lists sum'([H | T], A) -> 'lists sum'(T, A + H);
'lists sum'([], A) -> A.

'lists:max'([H | T]) -> 'lists max'(T, H).
'lists max'([H | T], A) when H > A -> 'lists max'(T, H);
'lists max'([_ | T], A) -> 'lists max'(T, A);
'lists max'([], A) -> A.

'lists:min'([H | T]) -> 'lists min'(T, H).
'lists min'([H | T], A) when H < A -> 'lists min'(T, H);
'lists min'([_ | T], A) -> 'lists min'(T, A);
'lists min'([], A) -> A.

'lists:nth'(1, [H | _]) -> H;
'lists:nth'(N, [_ | T]) when N > 1 -> 'lists:nth'(N - 1, T).

'lists:nthtail'(0, []) -> [];
'lists:nthtail'(0, [_ | _] = L) -> L;
'lists:nthtail'(1, [_ | T]) -> T;
'lists:nthtail'(N, [_ | T]) when N > 1 -> 'lists:nthtail'(N - 1, T).

'lists:last'([X]) -> X;
'lists:last'([_ | T]) -> 'lists:last'(T).

'lists:droplast'([_]) -> [];
'lists:droplast'([H | T]) -> [H | 'lists:droplast'(T)].

'lists:sublist'(L, N) when is_integer(N), is_list(L), N >= 0 -> 'lists sublist'(L, N).
'lists sublist'(_, 0) -> [];
'lists sublist'([], _) -> [];
'lists sublist'([H | T], N) -> [H | 'lists sublist'(T, N - 1)].

'lists:sublist'(L, 1, N) when is_list(L), is_integer(N), N >= 0 -> 'lists sublist'(L, N);
'lists:sublist'([], From, _) when is_integer(From), From > 1 -> [];
'lists:sublist'([_ | T], From, N) when is_integer(From), From > 1 -> 'lists:sublist'(T, From - 1, N).

'lists:split'(N, L) when is_integer(N), N >= 0, is_list(L) -> 'lists split'(N, L, []);
'lists:split'(_, _) -> error(badarg).
'lists split'(0, L, Taken) -> {lists:reverse(Taken), L};
'lists split'(N, [H | T], Taken) -> 'lists split'(N - 1, T, [H | Taken]);
'lists split'(_, [], _) -> error(badarg).

'lists:duplicate'(N, X) when is_integer(N), N >= 0 -> 'lists duplicate'(N, X).
'lists duplicate'(0, _) -> [];
'lists duplicate'(N, X) -> [X | 'lists duplicate'(N - 1, X)].

'lists:enumerate'(L) -> 'lists enumerate'(1, L).
'lists:enumerate'(From, L) when is_integer(From) -> 'lists enumerate'(From, L).
'lists enumerate'(N, [H | T]) -> [{N, H} | 'lists enumerate'(N + 1, T)];
'lists enumerate'(_, []) -> [].

%% ---- whole lists

'lists:delete'(X, [X | T]) -> T;
'lists:delete'(X, [H | T]) -> [H | 'lists:delete'(X, T)];
'lists:delete'(_, []) -> [].

'lists:subtract'(A, B) -> A -- B.

'lists:append'([L]) -> L;
'lists:append'([L | T]) -> L ++ 'lists:append'(T);
'lists:append'([]) -> [].

'lists:reverse'([H | T], A) -> 'lists:reverse'(T, [H | A]);
'lists:reverse'([], A) -> A;
'lists:reverse'(_, _) -> error(badarg).

'lists:flatten'(L) when is_list(L) -> 'lists flatten'(L, []).
'lists flatten'([H | T], A) when is_list(H) -> 'lists flatten'(H, 'lists flatten'(T, A));
'lists flatten'([H | T], A) -> [H | 'lists flatten'(T, A)];
'lists flatten'([], A) -> A.

'lists:flatten'(L, Tail) when is_list(L), is_list(Tail) -> 'lists flatten'(L, Tail).

'lists:flatlength'(L) -> 'lists flat length'(L, 0).
'lists flat length'([H | T], N) when is_list(H) -> 'lists flat length'(H, 'lists flat length'(T, N));
'lists flat length'([_ | T], N) -> 'lists flat length'(T, N + 1);
'lists flat length'([], N) -> N.

'lists:concat'(L) -> 'lists:flatmap'(fun 'lists text of'/1, L).
'lists text of'(X) when is_integer(X) -> integer_to_list(X);
'lists text of'(X) when is_atom(X) -> atom_to_list(X);
'lists text of'(X) when is_list(X) -> X.

'lists:uniq'(L) -> 'lists uniq'(fun(X) -> X end, L, []).

'lists:join'(_, []) -> [];
'lists:join'(S, [H | T]) -> [H | 'lists join'(S, T)].
'lists join'(S, [H | T]) -> [S, H | 'lists join'(S, T)];
'lists join'(_, []) -> [].

'lists:prefix'([X | T], [X | U]) -> 'lists:prefix'(T, U);
'lists:prefix'([], L) when is_list(L) -> true;
'lists:prefix'([_ | _], L) when is_list(L) -> false.

'lists:suffix'(A, B) ->
    Skip = length(B) - length(A),
    Skip >= 0 andalso 'lists:nthtail'(Skip, B) =:= A.

'lists:zip'([A | T], [B | U]) -> [{A, B} | 'lists:zip'(T, U)];
'lists:zip'([], []) -> [].

'lists:zip3'([A | T], [B | U], [C | V]) -> [{A, B, C} | 'lists:zip3'(T, U, V)];
'lists:zip3'([], [], []) -> [].

'lists:unzip'(L) -> 'lists unzip'(L, [], []).
'lists unzip'([{A, B} | T], As, Bs) -> 'lists unzip'(T, [A | As], [B | Bs]);
'lists unzip'([], As, Bs) -> {lists:reverse(As), lists:reverse(Bs)}.

'lists:unzip3'(L) -> 'lists unzip3'(L, [], [], []).
'lists unzip3'([{A, B, C} | T], As, Bs, Cs) -> 'lists unzip3'(T, [A | As], [B | Bs], [C | Cs]);
'lists unzip3'([], As, Bs, Cs) -> {lists:reverse(As), lists:reverse(Bs), lists:reverse(Cs)}.

%% ---- lists of tuples

'lists:keyfind'(K, N, L) when is_integer(N), N > 0 -> 'lists keyfind'(K, N, L);
'lists:keyfind'(_, _, _) -> error(badarg).
'lists keyfind'(K, N, [T | _]) when is_tuple(T), element(N, T) == K -> T;
'lists keyfind'(K, N, [_ | L]) -> 'lists keyfind'(K, N, L);
'lists keyfind'(_, _, []) -> false;
'lists keyfind'(_, _, _) -> error(badarg).

'lists:keysearch'(K, N, L) -> case 'lists:keyfind'(K, N, L) of false -> false; T -> {value, T} end.
'lists:keymember'(K, N, L) -> 'lists:keyfind'(K, N, L) =/= false.

'lists:keydelete'(K, N, L) when is_integer(N), N > 0 -> 'lists keydelete'(K, N, L).
'lists keydelete'(K, N, [H | T]) when element(N, H) == K -> T;
'lists keydelete'(K, N, [H | T]) -> [H | 'lists keydelete'(K, N, T)];
'lists keydelete'(_, _, []) -> [].

'lists:keyreplace'(K, N, L, New) when is_integer(N), N > 0, is_tuple(New) -> 'lists keyreplace'(K, N, L, New).
'lists keyreplace'(K, N, [H | T], New) when element(N, H) == K -> [New | T];
'lists keyreplace'(K, N, [H | T], New) -> [H | 'lists keyreplace'(K, N, T, New)];
'lists keyreplace'(_, _, [], _) -> [].

'lists:keystore'(K, N, L, New) when is_integer(N), N > 0, is_tuple(New) -> 'lists keystore'(K, N, L, New).
'lists keystore'(K, N, [H | T], New) when element(N, H) == K -> [New | T];
'lists keystore'(K, N, [H | T], New) -> [H | 'lists keystore'(K, N, T, New)];
'lists keystore'(_, _, [], New) -> [New].

'lists:keytake'(K, N, L) when is_integer(N), N > 0 -> 'lists keytake'(K, N, L, []).
'lists keytake'(K, N, [H | T], Before) when element(N, H) == K -> {value, H, 'lists:reverse'(Before, T)};
'lists keytake'(K, N, [H | T], Before) -> 'lists keytake'(K, N, T, [H | Before]);
'lists keytake'(_, _, [], _) -> false.

%% ---- sorting: the two halves, and then both into one, where the first of equal ones stays the first

'lists:sort'(L) -> 'lists sort'(fun(A, B) -> A =< B end, L).
'lists:sort'(F, [_, _ | _] = L) -> 'lists sort'(F, L);
'lists:sort'(F, []) when is_function(F, 2) -> [];
'lists:sort'(F, [_] = L) when is_function(F, 2) -> L.
'lists:keysort'(N, L) when is_integer(N), N > 0 ->
    case L of
        [_, _ | _] -> 'lists sort'(fun(A, B) -> element(N, A) =< element(N, B) end, L);
        [_] -> L;
        [] -> []
    end.

'lists sort'(_, []) -> [];
'lists sort'(_, [_] = L) -> L;
'lists sort'(F, L) when length(L) > 1 ->
    {A, B} = 'lists split'((length(L) + 1) div 2, L, []),
    'lists merge'(F, 'lists sort'(F, A), 'lists sort'(F, B)).

'lists merge'(_, [], B) -> B;
'lists merge'(_, A, []) -> A;
'lists merge'(F, [X | A], [Y | B]) ->
    case F(X, Y) of
        true -> [X | 'lists merge'(F, A, [Y | B])];
        false -> [Y | 'lists merge'(F, [X | A], B)]
    end.

'lists:merge'(A, []) -> A;
'lists:merge'(A, [Y | B]) -> 'lists take left'(A, Y, B, []).

%% The first of the right list is at hand, or the first of the left one.
'lists take left'([X | A], Y, B, Taken) when X =< Y -> 'lists take left'(A, Y, B, [X | Taken]);
'lists take left'([X | A], Y, B, Taken) -> 'lists take right'(X, A, B, [Y | Taken]);
'lists take left'([], Y, B, Taken) -> lists:reverse(Taken, [Y | 'lists proper'(B)]).
'lists take right'(X, A, [Y | B], Taken) when X =< Y -> 'lists take left'(A, Y, B, [X | Taken]);
'lists take right'(X, A, [Y | B], Taken) -> 'lists take right'(X, A, B, [Y | Taken]);
'lists take right'(X, A, [], Taken) -> lists:reverse(Taken, [X | 'lists proper'(A)]).

'lists proper'(L) -> _ = length(L), L.

'lists:usort'(L) -> 'lists once'('lists:sort'(L)).
'lists once'([A, B | T]) when A == B -> 'lists once'([A | T]);
'lists once'([A | T]) -> [A | 'lists once'(T)];
'lists once'([]) -> [].

'lists:merge'(F, A, []) when is_function(F, 2) -> A;
'lists:merge'(F, A, [Y | B]) when is_function(F, 2) -> 'lists take left'(F, A, Y, B, []).
'lists take left'(F, [X | A], Y, B, Taken) ->
    case F(X, Y) of
        true -> 'lists take left'(F, A, Y, B, [X | Taken]);
        false -> 'lists take right'(F, X, A, B, [Y | Taken])
    end;
'lists take left'(_, [], Y, B, Taken) -> lists:reverse(Taken, [Y | 'lists proper'(B)]).
'lists take right'(F, X, A, [Y | B], Taken) ->
    case F(X, Y) of
        true -> 'lists take left'(F, A, Y, B, [X | Taken]);
        false -> 'lists take right'(F, X, A, B, [Y | Taken])
    end;
'lists take right'(_, X, A, [], Taken) -> lists:reverse(Taken, [X | 'lists proper'(A)]).

'lists:keymerge'(N, A, B) when is_integer(N), N > 0 ->
    case B of
        [] -> A;
        [Y | Rest] ->
            _ = element(N, Y),
            'lists take left'('lists order of'(N), A, Y, Rest, [])
    end.
'lists order of'(N) -> fun(A, B) -> element(N, A) =< element(N, B) end.

'lists:merge'(Lists) -> 'lists merge all'(fun 'lists:merge'/2, 'lists sorted'(fun(A, B) -> A =< B end, Lists)).
'lists:merge3'(A, B, C) -> 'lists:merge'([A, B, C]).
'lists:umerge'(Lists) -> 'lists merge all'(fun 'lists:umerge'/2, 'lists sorted'(fun(A, B) -> A < B end, Lists)).
'lists:umerge3'(A, B, C) -> 'lists:umerge'([A, B, C]).

%% Each list merged into those before it. What comes of lists that are in no order depends on the library of the machine.
'lists merge all'(_, []) -> [];
'lists merge all'(Merge, [L | Lists]) -> 'lists foldl'(fun(New, All) -> Merge(All, New) end, L, Lists).

'lists sorted'(F, Lists) ->
    case is_list(Lists) andalso 'lists all'(fun(L) -> is_list(L) andalso 'lists is sorted'(F, L) end, Lists) of
        true -> Lists;
        false -> erlang:'a merge of lists that are not sorted'(Lists)
    end.
'lists is sorted'(F, [A | [B | _] = T]) -> F(A, B) andalso 'lists is sorted'(F, T);
'lists is sorted'(_, [_ | T]) -> T =:= [];
'lists is sorted'(_, []) -> true.

%% Of equal ones that of the left list stays: Same says whether one of the right list equals the last that was taken.
'lists:umerge'(A, B) -> 'lists once merged'({fun(X, Y) -> X =< Y end, fun(Y, Last) -> Y == Last end}, A, B).
'lists:umerge'(F, A, B) when is_function(F, 2) -> 'lists once merged'({F, F}, A, B).
'lists:ukeymerge'(N, A, B) when is_integer(N), N > 0 ->
    case A of
        [] -> B;
        [X | Rest] ->
            _ = element(N, X),
            'lists once right'({'lists order of'(N), fun(Y, Last) -> element(N, Y) == element(N, Last) end}, X, Rest, B, [])
    end.

'lists once merged'(_, [], B) -> B;
'lists once merged'(Fs, [X | A], B) -> 'lists once right'(Fs, X, A, B, []).
'lists once left'({F, Same} = Fs, [X | A], Y, B, Taken, Last) ->
    case F(X, Y) of
        true -> 'lists once left'(Fs, A, Y, B, [X | Taken], X);
        false ->
            case Same(Y, Last) of
                true -> 'lists once right'(Fs, X, A, B, Taken);
                false -> 'lists once right'(Fs, X, A, B, [Y | Taken])
            end
    end;
'lists once left'({_, Same}, [], Y, B, Taken, Last) ->
    case Same(Y, Last) of
        true -> lists:reverse(Taken, 'lists proper'(B));
        false -> lists:reverse(Taken, [Y | 'lists proper'(B)])
    end.
'lists once right'({F, _} = Fs, X, A, [Y | B], Taken) ->
    case F(X, Y) of
        true -> 'lists once left'(Fs, A, Y, B, [X | Taken], X);
        false -> 'lists once right'(Fs, X, A, B, [Y | Taken])
    end;
'lists once right'(_, X, A, [], Taken) -> lists:reverse(Taken, [X | 'lists proper'(A)]).

'lists:usort'(F, L) when is_function(F, 2) -> 'lists once'(F, 'lists:sort'(F, L)).
'lists:ukeysort'(N, L) when is_integer(N), N > 0 -> 'lists once'('lists order of'(N), 'lists:keysort'(N, L)).
'lists once'(F, [A, B | T]) ->
    case F(B, A) of
        true -> 'lists once'(F, [A | T]);
        false -> [A | 'lists once'(F, [B | T])]
    end;
'lists once'(_, L) -> L.

%% ---- of erlang

'erlang:max'(A, B) when A >= B -> A;
'erlang:max'(_, B) -> B.

'erlang:min'(A, B) when A =< B -> A;
'erlang:min'(_, B) -> B.

'erlang:append_element'(T, X) when is_tuple(T) -> list_to_tuple(tuple_to_list(T) ++ [X]);
'erlang:append_element'(_, _) -> error(badarg).

'erlang:insert_element'(N, T, X) when is_integer(N), is_tuple(T), N > 0, N =< tuple_size(T) + 1 ->
    {Before, After} = lists:split(N - 1, tuple_to_list(T)),
    list_to_tuple(Before ++ [X | After]);
'erlang:insert_element'(_, _, _) -> error(badarg).

'erlang:delete_element'(N, T) when is_integer(N), is_tuple(T), N > 0, N =< tuple_size(T) ->
    {Before, [_ | After]} = lists:split(N - 1, tuple_to_list(T)),
    list_to_tuple(Before ++ After);
'erlang:delete_element'(_, _) -> error(badarg).


%% The last pair of a place is its value.
'erlang:make_tuple'(N, X, Pairs) -> 'tuple of pairs'('erlang:make_tuple'(N, X), Pairs).
'tuple of pairs'(T, [{N, X} | Pairs]) -> 'tuple of pairs'(setelement(N, T, X), Pairs);
'tuple of pairs'(T, []) -> T;
'tuple of pairs'(_, _) -> error(badarg).

'erlang:make_tuple'(N, X) when is_integer(N), N >= 0 -> list_to_tuple('lists duplicate'(N, X));
'erlang:make_tuple'(_, _) -> error(badarg).

'erlang:integer_to_list'(N) when is_integer(N), N >= 0 -> 'digits of'(-N, []);
'erlang:integer_to_list'(N) when is_integer(N) -> [$- | 'digits of'(N, [])];
'erlang:integer_to_list'(_) -> error(badarg).

%% Of a number below zero, since the least has no number above zero to it.
'digits of'(N, Digits) when N > -10 -> [$0 - N | Digits];
'digits of'(N, Digits) -> 'digits of'(N div 10, [$0 - N rem 10 | Digits]).
