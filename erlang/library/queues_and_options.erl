%% Functions of the modules queue and proplists. A queue is the pair of lists that it is in the
%% library: what came last, latest first, and what goes first. Each has an item where there are two.
-module(queues_and_options).
-compile([export_all, nowarn_export_all]).

'queue:new'() -> {[], []}.

'queue:is_queue'({R, F}) when is_list(R), is_list(F) -> true;
'queue:is_queue'(_) -> false.

'queue:is_empty'({[], []}) -> true;
'queue:is_empty'({R, F}) when is_list(R), is_list(F) -> false;
'queue:is_empty'(_) -> error(badarg).

'queue:len'({R, F}) when is_list(R), is_list(F) -> length(R) + length(F);
'queue:len'(_) -> error(badarg).

'queue:to_list'({R, F}) when is_list(R), is_list(F) -> F ++ lists:reverse(R);
'queue:to_list'(_) -> error(badarg).

'queue:from_list'(L) when is_list(L) -> 'queue of front'(L);
'queue:from_list'(_) -> error(badarg).

'queue:member'(X, {R, F}) when is_list(R), is_list(F) -> lists:member(X, R) orelse lists:member(X, F);
'queue:member'(_, _) -> error(badarg).

'queue:in'(X, {[_] = R, []}) -> {[X], R};
'queue:in'(X, {R, F}) when is_list(R), is_list(F) -> {[X | R], F};
'queue:in'(_, _) -> error(badarg).

'queue:in_r'(X, {[], [_] = F}) -> {F, [X]};
'queue:in_r'(X, {R, F}) when is_list(R), is_list(F) -> {R, [X | F]};
'queue:in_r'(_, _) -> error(badarg).

'queue:out'({[], []} = Q) -> {empty, Q};
'queue:out'({[X], []}) -> {{value, X}, {[], []}};
'queue:out'({[X | R], []}) when is_list(R) ->
    [First | F] = lists:reverse(R),
    {{value, First}, {[X], F}};
'queue:out'({R, [X]}) when is_list(R) -> {{value, X}, 'queue of rear'(R)};
'queue:out'({R, [X | F]}) when is_list(R) -> {{value, X}, {R, F}};
'queue:out'(_) -> error(badarg).

'queue:out_r'({[], []} = Q) -> {empty, Q};
'queue:out_r'({[], [X]}) -> {{value, X}, {[], []}};
'queue:out_r'({[], [X | F]}) when is_list(F) ->
    [Last | R] = lists:reverse(F),
    {{value, Last}, {R, [X]}};
'queue:out_r'({[X], F}) when is_list(F) -> {{value, X}, 'queue of front'(F)};
'queue:out_r'({[X | R], F}) when is_list(F) -> {{value, X}, {R, F}};
'queue:out_r'(_) -> error(badarg).

'queue:peek'({[], []}) -> empty;
'queue:peek'({R, [X | _]}) when is_list(R) -> {value, X};
'queue:peek'({[X], []}) -> {value, X};
'queue:peek'({[_ | R], []}) -> {value, lists:last(R)};
'queue:peek'(_) -> error(badarg).

'queue:peek_r'({[], []}) -> empty;
'queue:peek_r'({[X | _], F}) when is_list(F) -> {value, X};
'queue:peek_r'({[], [X]}) -> {value, X};
'queue:peek_r'({[], [_ | F]}) -> {value, lists:last(F)};
'queue:peek_r'(_) -> error(badarg).

'queue:get'(Q) -> case 'queue:peek'(Q) of {value, X} -> X; empty -> error(empty) end.
'queue:get_r'(Q) -> case 'queue:peek_r'(Q) of {value, X} -> X; empty -> error(empty) end.
'queue:drop'(Q) -> case 'queue:out'(Q) of {{value, _}, Rest} -> Rest; {empty, _} -> error(empty) end.
'queue:drop_r'(Q) -> case 'queue:out_r'(Q) of {{value, _}, Rest} -> Rest; {empty, _} -> error(empty) end.

'queue:reverse'({R, F}) when is_list(R), is_list(F) -> {F, R};
'queue:reverse'(_) -> error(badarg).

'queue:join'({R, F} = Q, {[], []}) when is_list(R), is_list(F) -> Q;
'queue:join'({[], []}, {R, F} = Q) when is_list(R), is_list(F) -> Q;
'queue:join'({R1, F1}, {R2, F2}) when is_list(R1), is_list(F1), is_list(R2), is_list(F2) -> {R2, F1 ++ lists:reverse(R1, F2)};
'queue:join'(_, _) -> error(badarg).

'queue of rear'([]) -> {[], []};
'queue of rear'([_] = R) -> {[], R};
'queue of rear'([X, Y]) -> {[X], [Y]};
'queue of rear'(L) ->
    {R, F} = lists:split(length(L) div 2, L),
    {R, lists:reverse(F)}.

'queue of front'([]) -> {[], []};
'queue of front'([_] = F) -> {F, []};
'queue of front'([X, Y]) -> {[Y], [X]};
'queue of front'(L) ->
    {F, R} = lists:split(length(L) div 2, L),
    {lists:reverse(R), F}.

%% ---- proplists

'proplists:get_value'(K, L) -> 'proplists:get_value'(K, L, undefined).

'proplists:get_value'(K, [P | T], Default) ->
    if
        is_atom(P), P =:= K -> true;
        tuple_size(P) >= 1, element(1, P) =:= K ->
            case P of
                {_, V} -> V;
                _ -> Default
            end;
        true -> 'proplists:get_value'(K, T, Default)
    end;
'proplists:get_value'(_, [], Default) -> Default.

'proplists:get_bool'(K, [P | T]) ->
    if
        is_atom(P), P =:= K -> true;
        tuple_size(P) >= 1, element(1, P) =:= K ->
            case P of
                {_, true} -> true;
                _ -> false
            end;
        true -> 'proplists:get_bool'(K, T)
    end;
'proplists:get_bool'(_, []) -> false.

'proplists:lookup'(K, [P | T]) ->
    if
        is_atom(P), P =:= K -> {K, true};
        tuple_size(P) >= 1, element(1, P) =:= K -> P;
        true -> 'proplists:lookup'(K, T)
    end;
'proplists:lookup'(_, []) -> none.

'proplists:is_defined'(K, L) -> 'proplists:lookup'(K, L) =/= none.

'proplists:delete'(K, [P | T]) ->
    if
        is_atom(P), P =:= K -> 'proplists:delete'(K, T);
        tuple_size(P) >= 1, element(1, P) =:= K -> 'proplists:delete'(K, T);
        true -> [P | 'proplists:delete'(K, T)]
    end;
'proplists:delete'(_, []) -> [].

'proplists:get_all_values'(K, [P | T]) ->
    if
        is_atom(P), P =:= K -> [true | 'proplists:get_all_values'(K, T)];
        tuple_size(P) >= 1, element(1, P) =:= K ->
            case P of
                {_, V} -> [V | 'proplists:get_all_values'(K, T)];
                _ -> 'proplists:get_all_values'(K, T)
            end;
        true -> 'proplists:get_all_values'(K, T)
    end;
'proplists:get_all_values'(_, []) -> [].
