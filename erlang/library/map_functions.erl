%% Functions of the module maps. {'$map', [{Key, Value}, ..]}, in the order of keys, represents
%% a map; the converter writes the tuple that it really is.
-module(map_functions).
-compile([export_all, nowarn_export_all]).

'maps:new'() -> {'$map', []}.

'maps:put'(K, V, {'$map', L}) -> {'$map', 'map put'(K, V, L)};
'maps:put'(_, _, M) -> error({badmap, M}).
'map put'(K, V, [{K1, _} = P | T]) when K1 < K -> [P | 'map put'(K, V, T)];
'map put'(K, V, [{K, _} | T]) -> [{K, V} | T];
'map put'(K, V, L) -> [{K, V} | L].

'maps:update'(K, V, {'$map', L}) ->
    case lists:keymember(K, 1, L) of
        true -> {'$map', 'map put'(K, V, L)};
        false -> error({badkey, K})
    end;
'maps:update'(_, _, M) -> error({badmap, M}).

'maps:find'(K, {'$map', L}) -> case lists:keyfind(K, 1, L) of {_, V} -> {ok, V}; false -> error end;
'maps:find'(_, M) -> error({badmap, M}).

'maps:get'(K, {'$map', L}) -> case lists:keyfind(K, 1, L) of {_, V} -> V; false -> error({badkey, K}) end;
'maps:get'(_, M) -> error({badmap, M}).
'maps:get'(K, {'$map', L}, Default) -> case lists:keyfind(K, 1, L) of {_, V} -> V; false -> Default end;
'maps:get'(_, M, _) -> error({badmap, M}).

'maps:is_key'(K, {'$map', L}) -> lists:keymember(K, 1, L);
'maps:is_key'(_, M) -> error({badmap, M}).

'maps:remove'(K, {'$map', L}) -> {'$map', lists:keydelete(K, 1, L)};
'maps:remove'(_, M) -> error({badmap, M}).

'maps:take'(K, {'$map', L}) ->
    case lists:keyfind(K, 1, L) of
        {_, V} -> {V, {'$map', lists:keydelete(K, 1, L)}};
        false -> error
    end;
'maps:take'(_, M) -> error({badmap, M}).

'maps:keys'({'$map', L}) -> [K || {K, _} <- L];
'maps:keys'(M) -> error({badmap, M}).

'maps:values'({'$map', L}) -> [V || {_, V} <- L];
'maps:values'(M) -> error({badmap, M}).

'maps:to_list'({'$map', L}) -> L;
'maps:to_list'(M) -> error({badmap, M}).

'maps:size'({'$map', L}) -> length(L);
'maps:size'(M) -> error({badmap, M}).

'maps:from_list'(L) -> 'map from'(L, []).
'map from'([{K, V} | T], Pairs) -> 'map from'(T, 'map put'(K, V, Pairs));
'map from'([], Pairs) -> {'$map', Pairs};
'map from'(_, _) -> error(badarg).

'maps:from_keys'(Keys, V) -> 'map from keys'(Keys, V, []).
'map from keys'([K | T], V, Pairs) -> 'map from keys'(T, V, 'map put'(K, V, Pairs));
'map from keys'([], _, Pairs) -> {'$map', Pairs};
'map from keys'(_, _, _) -> error(badarg).

'maps:merge'({'$map', A}, {'$map', B}) -> {'$map', 'map merge'(A, B)};
'maps:merge'({'$map', _}, M) -> error({badmap, M});
'maps:merge'(M, _) -> error({badmap, M}).
'map merge'(A, [{K, V} | T]) -> 'map merge'('map put'(K, V, A), T);
'map merge'(A, []) -> A.

'maps:merge_with'(F, {'$map', A}, {'$map', B}) when is_function(F, 3) -> {'$map', 'map merge with'(F, A, B)};
'maps:merge_with'(F, {'$map', _}, M) when is_function(F, 3) -> error({badmap, M});
'maps:merge_with'(F, M, _) when is_function(F, 3) -> error({badmap, M});
'maps:merge_with'(_, _, _) -> error(badarg).
'map merge with'(F, A, [{K, V} | T]) ->
    New = case lists:keyfind(K, 1, A) of {_, Old} -> F(K, Old, V); false -> V end,
    'map merge with'(F, 'map put'(K, New, A), T);
'map merge with'(_, A, []) -> A.

'maps:map'(F, {'$map', L}) when is_function(F, 2) -> {'$map', [{K, F(K, V)} || {K, V} <- L]};
'maps:map'(F, I) when is_function(F, 2) -> 'maps:from_list'([{K, F(K, V)} || {K, V} <- 'map pairs'(I)]);
'maps:map'(_, _) -> error(badarg).

'maps:filter'(F, {'$map', L}) when is_function(F, 2) -> {'$map', 'map filter'(F, L)};
'maps:filter'(F, I) when is_function(F, 2) -> 'maps:from_list'('map filter'(F, 'map pairs'(I)));
'maps:filter'(_, _) -> error(badarg).
'map filter'(F, [{K, V} = P | T]) ->
    case F(K, V) of
        true -> [P | 'map filter'(F, T)];
        false -> 'map filter'(F, T)
    end;
'map filter'(_, []) -> [].

'maps:filtermap'(F, {'$map', L}) when is_function(F, 2) -> {'$map', 'map filtermap'(F, L)};
'maps:filtermap'(F, I) when is_function(F, 2) -> 'maps:from_list'('map filtermap'(F, 'map pairs'(I)));
'maps:filtermap'(_, _) -> error(badarg).
'map filtermap'(F, [{K, V} = P | T]) ->
    case F(K, V) of
        true -> [P | 'map filtermap'(F, T)];
        {true, New} -> [{K, New} | 'map filtermap'(F, T)];
        false -> 'map filtermap'(F, T)
    end;
'map filtermap'(_, []) -> [].

'maps:fold'(F, A, {'$map', L}) when is_function(F, 3) -> 'map fold'(F, A, L);
'maps:fold'(F, A, I) when is_function(F, 3) -> 'map fold'(F, A, 'map pairs'(I));
'maps:fold'(_, _, _) -> error(badarg).
'map fold'(F, A, [{K, V} | T]) -> 'map fold'(F, F(K, V, A), T);
'map fold'(_, A, []) -> A.

'maps:foreach'(F, {'$map', L}) when is_function(F, 2) -> 'map foreach'(F, L);
'maps:foreach'(F, I) when is_function(F, 2) -> 'map foreach'(F, 'map pairs'(I));
'maps:foreach'(_, _) -> error(badarg).
'map foreach'(F, [{K, V} | T]) -> F(K, V), 'map foreach'(F, T);
'map foreach'(_, []) -> ok.

'maps:update_with'(K, F, {'$map', L} = M) when is_function(F, 1) ->
    case lists:keyfind(K, 1, L) of
        {_, V} -> 'maps:put'(K, F(V), M);
        false -> error({badkey, K})
    end;
'maps:update_with'(_, F, M) when is_function(F, 1) -> error({badmap, M});
'maps:update_with'(_, _, _) -> error(badarg).

'maps:update_with'(K, F, Init, {'$map', L} = M) when is_function(F, 1) ->
    case lists:keyfind(K, 1, L) of
        {_, V} -> 'maps:put'(K, F(V), M);
        false -> 'maps:put'(K, Init, M)
    end;
'maps:update_with'(_, F, _, M) when is_function(F, 1) -> error({badmap, M});
'maps:update_with'(_, _, _, _) -> error(badarg).

'maps:with'(Keys, {'$map', L}) when is_list(Keys) -> {'$map', 'map with'(Keys, L, [])};
'maps:with'(Keys, M) when is_list(Keys) -> error({badmap, M});
'maps:with'(_, _) -> error(badarg).
'map with'([K | T], L, Found) ->
    case lists:keyfind(K, 1, L) of
        {_, V} -> 'map with'(T, L, 'map put'(K, V, Found));
        false -> 'map with'(T, L, Found)
    end;
'map with'([], _, Found) -> Found.

'maps:without'(Keys, {'$map', L}) when is_list(Keys) -> {'$map', 'map without'(Keys, L)};
'maps:without'(Keys, M) when is_list(Keys) -> error({badmap, M});
'maps:without'(_, _) -> error(badarg).
'map without'([K | T], L) -> 'map without'(T, lists:keydelete(K, 1, L));
'map without'([], L) -> L.

%% The second map's value stays.
'maps:intersect'(A, B) -> 'map intersect'(fun(_, _, V) -> V end, A, B).
'maps:intersect_with'(F, A, B) when is_function(F, 3) -> 'map intersect'(F, A, B);
'maps:intersect_with'(_, {'$map', _}, {'$map', _}) -> error(badarg);
'maps:intersect_with'(_, {'$map', _}, M) -> error({badmap, M});
'maps:intersect_with'(_, M, _) -> error({badmap, M}).
'map intersect'(F, {'$map', A}, {'$map', B}) -> {'$map', [{K, F(K, V, W)} || {K, V} <- A, {L, W} <- B, K =:= L]};
'map intersect'(_, {'$map', _}, M) -> error({badmap, M});
'map intersect'(_, M, _) -> error({badmap, M}).

'maps:groups_from_list'(F, L) -> 'maps:groups_from_list'(F, fun(X) -> X end, L).
'maps:groups_from_list'(F, G, L) when is_function(F, 1), is_function(G, 1), length(L) >= 0 -> 'map groups'(F, G, lists:reverse(L), []);
'maps:groups_from_list'(_, _, _) -> error(badarg).
'map groups'(F, G, [H | T], Pairs) ->
    K = F(H),
    V = G(H),
    Group = case lists:keyfind(K, 1, Pairs) of {_, Vs} -> Vs; false -> [] end,
    'map groups'(F, G, T, 'map put'(K, [V | Group], Pairs));
'map groups'(_, _, [], Pairs) -> {'$map', Pairs}.

'maps:iterator'({'$map', _} = M) -> [0 | M];
'maps:iterator'(M) -> error({badmap, M}).

'maps:next'([N | {'$map', L}]) when is_integer(N) -> 'map chain'(L);
'maps:next'({K, V, Rest}) -> {K, V, Rest};
'maps:next'(none) -> none;
'maps:next'(_) -> error(badarg).
'map chain'([{K, V} | T]) -> {K, V, 'map chain'(T)};
'map chain'([]) -> none.

%% The pairs that an iterator comes to.
'map pairs'([N | {'$map', L}]) when is_integer(N) -> L;
'map pairs'({K, V, Rest}) -> [{K, V} | 'map further pairs'(Rest)];
'map pairs'(none) -> [];
'map pairs'(M) -> error({badmap, M}).
'map further pairs'(I) ->
    case I =:= none orelse is_list(I) orelse is_tuple(I) andalso tuple_size(I) =:= 3 of
        true -> 'map pairs'(I);
        false -> erlang:'an iterator of this form'(I)
    end.

%% ---- of erlang

'erlang:map_size'(M) -> 'maps:size'(M).
'erlang:is_map_key'(K, M) -> 'maps:is_key'(K, M).
'erlang:map_get'(K, M) -> 'maps:get'(K, M).

%% What a map pattern asks of a key: {ok, Value} or error, and error for what is no map.
'map pattern:look'(K, {'$map', L}) -> case lists:keyfind(K, 1, L) of {_, V} -> {ok, V}; false -> error end;
'map pattern:look'(_, _) -> error.
