%% Functions of the module ets that the explorer does not have, made of those that it has.
-module(table_functions).
-compile([export_all, nowarn_export_all]).

%% What may be asked of a table in a step of its own; where the source says it already, the converter puts it in its place.
'ets key position'(T) -> ets:info(T, keypos).
'ets is ordered'(T) -> ets:info(T, type) =:= ordered_set.
'ets is a bag'(T) -> lists:member(ets:info(T, type), [bag, duplicate_bag]).

%% ---- walks that are one step, as ets:tab2list/1 is in the explorer

'ets:match_object'(T, Pattern) -> [V || R <- ets:tab2list(T), {value, V} <- ['ets matched'(match_object, Pattern, R)]].
'ets:match'(T, Pattern) -> [V || R <- ets:tab2list(T), {value, V} <- ['ets matched'(match, Pattern, R)]].

'ets matched'(How, Pattern, R) ->
    case 'ets matches'(Pattern, R, []) of
        false -> none;
        _ when How =:= match_object -> {value, R};
        Bound -> {value, 'ets values'(Bound)}
    end.

'ets:select'(T, Clauses) ->
    Checked = 'ets clauses'(Clauses),
    [V || R <- ets:tab2list(T), {value, V} <- ['ets select'(Checked, R)]].

'ets:select_reverse'(T, Clauses) ->
    Found = 'ets:select'(T, Clauses),
    case 'ets is ordered'(T) of
        true -> lists:reverse(Found);
        false -> Found
    end.

%% A process that may not write is refused first, as in ets itself.
'ets:match_delete'(T, '_') -> ets:delete_all_objects(T);
'ets:match_delete'(T, Pattern) ->
    true = ets:insert(T, []),
    'ets delete each'(T, 'ets:match_object'(T, Pattern)),
    true.

'ets delete each'(T, [R | Rest]) -> ets:delete_object(T, R), 'ets delete each'(T, Rest);
'ets delete each'(_, []) -> ok.

'ets:select_count'(T, Clauses) -> length('ets true'('ets clauses'(Clauses), ets:tab2list(T))).

'ets:select_delete'(T, Clauses) ->
    true = ets:insert(T, []),
    Found = 'ets true'('ets clauses'(Clauses), ets:tab2list(T)),
    'ets delete each'(T, Found),
    length(Found).

'ets true'(Clauses, L) -> [R || R <- L, 'ets select'(Clauses, R) =:= {value, true}].

%% A compiled specification is a function here.
'ets:match_spec_compile'(Clauses) ->
    Checked = 'ets clauses'(Clauses),
    fun(compiled, R) -> 'ets select'(Checked, R) end.

'ets:match_spec_run'(Objects, Compiled) when length(Objects) >= 0, is_function(Compiled, 2) ->
    [V || R <- Objects, {value, V} <- [Compiled(compiled, R)]];
'ets:match_spec_run'(_, _) -> error(badarg).

'ets:is_compiled_ms'(Compiled) -> is_function(Compiled, 2).

'ets:test_ms'(R, Clauses) ->
    Checked = try 'ets clauses'(Clauses) catch error:_ -> ets:'test_ms of what is no specification'(Clauses) end,
    case 'ets select'(Checked, R) of
        {value, V} -> {ok, V};
        none -> {ok, false}
    end.

%% ---- walks that look at one key after the other, as on the real machine. There a fold holds the keys of a table fast, so
%% that a key that is deleted meanwhile still has a next one.

%% The last step is that of letting go: the table has to be there still.
'ets:foldl'(F, A, T) ->
    Position = 'ets key position'(T),
    First = ets:first(T),
    try 'ets fold up'(F, A, First, T, Position) after ets:member(T, '$end_of_table') end.

'ets fold up'(_, A, '$end_of_table', _, _) -> A;
'ets fold up'(F, A, Key, T, Position) ->
    'ets fold up'(F, lists:foldl(F, A, ets:lookup(T, Key)), 'ets key after'(T, Key, Position), T, Position).

'ets:foldr'(F, A, T) ->
    Position = 'ets key position'(T),
    IsOrdered = 'ets is ordered'(T),
    Last = ets:last(T),
    try 'ets fold down'(F, A, Last, T, {IsOrdered, Position}) after ets:member(T, '$end_of_table') end.

'ets fold down'(_, A, '$end_of_table', _, _) -> A;
'ets fold down'(F, A, Key, T, Way) ->
    'ets fold down'(F, lists:foldr(F, A, ets:lookup(T, Key)), 'ets key before'(T, Key, Way), T, Way).

%% What is no ordered set has one way alone.
'ets key before'(T, Key, {true, _}) -> ets:prev(T, Key);
'ets key before'(T, Key, {false, Position}) -> 'ets key after'(T, Key, Position).

%% ets:next/2 asks for a key that is there; this does not.
'ets key after'(T, Key, Position) -> 'ets first after'(ets:tab2list(T), Key, Position).

'ets first after'([R | Rest], Key, Position) ->
    case element(Position, R) of
        Next when Next > Key -> Next;
        _ -> 'ets first after'(Rest, Key, Position)
    end;
'ets first after'([], _, _) -> '$end_of_table'.

%% ---- where the source itself holds keys fast; its calls of ets:next/2 and ets:prev/2 are these then

'ets:safe_fixtable'(T, IsFixed) when is_boolean(IsFixed) -> ets:member(T, '$end_of_table'), true;
'ets:safe_fixtable'(_, _) -> error(badarg).

'fixed table:next'(T, Key) -> 'ets key after'(T, Key, 'ets key position'(T)).

'fixed table:prev'(T, Key) -> 'ets key before'(T, Key, {'ets is ordered'(T), 'ets key position'(T)}).

%% ---- walks by chunks; what takes one up again says what is looked for, and after which key

'ets:select'(T, Clauses, N) -> 'ets begin chunks'(T, {select, 'ets clauses'(Clauses)}, N, up).
'ets:select_reverse'(T, Clauses, N) -> 'ets begin chunks'(T, {select, 'ets clauses'(Clauses)}, N, down).
'ets:match'(T, Pattern, N) -> 'ets begin chunks'(T, {match, Pattern}, N, up).
'ets:match_object'(T, Pattern, N) -> 'ets begin chunks'(T, {match_object, Pattern}, N, up).

'ets:select'(Continuation) -> 'ets go on'(Continuation).
'ets:select_reverse'(Continuation) -> 'ets go on'(Continuation).
'ets:match'(Continuation) -> 'ets go on'(Continuation).
'ets:match_object'(Continuation) -> 'ets go on'(Continuation).

%% What is no ordered set is gone through backwards, and each chunk turned round: so do the objects of one key on the real
%% machine.
'ets begin chunks'(T, Sought, N, Asked) when is_integer(N), N > 0 ->
    Direction = case 'ets is ordered'(T) of
        true -> Asked;
        false -> turned
    end,
    Way = {Direction, 'ets key position'(T)},
    'ets chunk'({T, Sought, N, Way}, 'ets keyed'(Sought, 'ets rows'(T, Way), Way));
'ets begin chunks'(_, _, _, _) -> error(badarg).

'ets go on'({'ets chunks', {T, Sought, _, Way} = Walk, Left, Key}) ->
    'ets chunk'(Walk, Left ++ 'ets keyed'(Sought, 'ets rows after'('ets rows'(T, Way), Key, Way), Way));
'ets go on'('$end_of_table') -> '$end_of_table';
'ets go on'(_) -> error(badarg).

'ets rows'(T, {up, _}) -> ets:tab2list(T);
'ets rows'(T, _) -> lists:reverse(ets:tab2list(T)).

'ets rows after'(Rows, Key, {up, Position}) -> [R || R <- Rows, element(Position, R) > Key];
'ets rows after'(Rows, Key, {_, Position}) -> [R || R <- Rows, element(Position, R) < Key].

%% What is found, each with its key.
'ets keyed'(Sought, Rows, {_, Position}) -> [{element(Position, R), V} || R <- Rows, {value, V} <- ['ets found'(Sought, R)]].

'ets found'({select, Clauses}, R) -> 'ets select'(Clauses, R);
'ets found'({How, Pattern}, R) -> 'ets matched'(How, Pattern, R).

'ets chunk'(_, []) -> '$end_of_table';
'ets chunk'({_, Sought, N, {_, Position} = Way} = Walk, Found) when length(Found) >= N ->
    {Now, Rest} = lists:split(N, Found),
    {Key, _} = lists:last(Now),
    GoOn = case Rest =:= [] andalso 'ets has one key'(Sought, Position) of
        true -> '$end_of_table';
        false -> {'ets chunks', Walk, [F || {K, _} = F <- Rest, K =:= Key], Key}
    end,
    {'ets values of'(Now, Way), GoOn};
'ets chunk'({_, _, _, Way}, Found) -> {'ets values of'(Found, Way), '$end_of_table'}.

'ets values of'(Found, {turned, _}) -> [V || {_, V} <- lists:reverse(Found)];
'ets values of'(Found, _) -> [V || {_, V} <- Found].

%% Whether all that is sought is under one key.
'ets has one key'({select, [{Pattern, _, _}]}, Position) -> 'ets has closed part'(Pattern, Position);
'ets has one key'({select, _}, _) -> false;
'ets has one key'({_, Pattern}, Position) -> 'ets has closed part'(Pattern, Position).

'ets has closed part'(Pattern, Position) ->
    'ets has part'(Pattern, Position) andalso 'ets is closed'(element(Position, Pattern)).

%% ---- the order of a bag

%% The objects of a list come into a bag from the last to the first.
'bag:last first'([_, _ | _] = Objects) -> try lists:reverse(Objects) catch error:_ -> Objects end;
'bag:last first'(Objects) -> Objects.

%% ---- select_replace: what replaces an object has its key, which the clauses have to show

'ets:select_replace'(T, Clauses) ->
    Position = 'ets key position'(T),
    Rows = ets:tab2list(T),
    Checked = 'ets clauses'(Clauses),
    'ets is a bag'(T) andalso error(badarg),
    'ets keep keys'(Checked, Position) orelse error(badarg),
    New = [V || R <- Rows, {value, V} <- ['ets select'(Checked, R)]],
    ets:insert(T, New),
    length(New).

'ets keep keys'([{Pattern, _, Body} | T], Position) ->
    'ets keeps key'(Pattern, lists:last(Body), Position) andalso 'ets keep keys'(T, Position);
'ets keep keys'([], _) -> true.

'ets keeps key'(_, '$_', _) -> true;
'ets keeps key'(Pattern, {const, Object}, Position) ->
    'ets has part'(Pattern, Position) andalso 'ets has part'(Object, Position) andalso
        'ets is key'(element(Position, Pattern), {const, element(Position, Object)});
'ets keeps key'(Pattern, {Object}, Position) ->
    'ets has part'(Object, Position) andalso
        'ets has part'(Pattern, Position) andalso
        (element(Position, Object) =:= {element, Position, '$_'} orelse
            'ets is key'(element(Position, Pattern), element(Position, Object)));
'ets keeps key'(_, _, _) -> false.

'ets has part'(T, Position) -> is_tuple(T) andalso Position =< tuple_size(T).

%% Whether an expression gives what the key of a pattern is bound to.
'ets is key'('_', _) -> false;
'ets is key'(Key, {const, Value}) -> Key =:= Value andalso 'ets is closed'(Key);
'ets is key'(Key, {Parts}) when is_tuple(Key), is_tuple(Parts), tuple_size(Key) =:= tuple_size(Parts) ->
    'ets are keys'(tuple_to_list(Key), tuple_to_list(Parts));
'ets is key'([K | Ks], [E | Es]) -> 'ets is key'(K, E) andalso 'ets is key'(Ks, Es);
'ets is key'(Key, Key) -> not is_tuple(Key);
'ets is key'(_, _) -> false.

'ets are keys'([K | Ks], [E | Es]) -> 'ets is key'(K, E) andalso 'ets are keys'(Ks, Es);
'ets are keys'([], []) -> true.

%% Whether a part of a pattern meets one value alone.
'ets is closed'(P) -> 'ets variables'(P, []) =:= [] andalso 'ets has no blank'(P).

'ets has no blank'('_') -> false;
'ets has no blank'([H | T]) -> 'ets has no blank'(H) andalso 'ets has no blank'(T);
'ets has no blank'(T) when is_tuple(T) -> 'ets has no blank'(tuple_to_list(T));
'ets has no blank'(_) -> true.

%% ---- what is asked of tables

'ets:info'(T, Item) ->
    case lists:member(Item, [name, owner, heir, size, type, protection, keypos, named_table]) of
        true -> ets:info(T, Item);
        false -> 'ets other item'(T, Item, ets:info(T, type))
    end.

'ets other item'(_, _, undefined) -> undefined;
'ets other item'(T, Item, _) ->
    case lists:member(Item, [id, memory, read_concurrency, write_concurrency, compressed, decentralized_counters, fixed, safe_fixed,
                             safe_fixed_monotonic_time, stats, binary, node]) of
        true -> ets:'info/2 of another item'(T, Item);
        false -> error(badarg)
    end.

%% The name finds the table as well as what the real machine gives.
'ets:whereis'(Name) when is_atom(Name) ->
    case ets:info(Name, type) of
        undefined -> undefined;
        _ -> Name
    end;
'ets:whereis'(_) -> error(badarg).

%% ---- match specifications: {Pattern, Guards, Body}; what is none is refused, as in ets itself

'ets clauses'(L) ->
    case is_list(L) andalso L =/= [] andalso 'ets are clauses'(L) of
        true -> L;
        _ -> error(badarg)
    end.

'ets are clauses'([{P, Guards, [_ | _] = Body} | T]) ->
    Variables = 'ets variables'(P, []),
    'ets fit'(Guards, Variables) andalso 'ets fit'(Body, Variables) andalso 'ets are clauses'(T);
'ets are clauses'([]) -> true;
'ets are clauses'(_) -> false.

'ets variables'(P, Sum) when is_atom(P) -> case 'ets variable'(P) of true -> [P | Sum]; false -> Sum end;
'ets variables'([H | T], Sum) -> 'ets variables'(T, 'ets variables'(H, Sum));
'ets variables'(P, Sum) when is_tuple(P) -> 'ets variables'(tuple_to_list(P), Sum);
'ets variables'(_, Sum) -> Sum.

%% Whether a list of expressions is one of those that are known here, with variables of the pattern.
'ets fit'([E | T], Variables) -> 'ets fits'(E, Variables) andalso 'ets fit'(T, Variables);
'ets fit'([], _) -> true;
'ets fit'(_, _) -> false.

'ets fits'(A, Variables) when is_atom(A) -> not 'ets variable'(A) orelse lists:member(A, Variables);
'ets fits'({const, _}, _) -> true;
'ets fits'({T}, Variables) when is_tuple(T) -> 'ets fit'(tuple_to_list(T), Variables);
'ets fits'({self}, _) -> true;
'ets fits'({node}, _) -> true;
'ets fits'({Op, X}, Variables) when is_atom(Op) ->
    lists:member(Op, ['not', '-', abs, 'bnot', hd, tl, length, tuple_size, size, round, trunc, map_size, is_integer, is_number, is_atom,
                      is_list, is_tuple, is_pid, is_reference, is_float, is_binary, is_function, is_map, byte_size, bit_size, node])
        andalso 'ets fits'(X, Variables);
'ets fits'({Op, X, Y}, Variables) when is_atom(Op) ->
    lists:member(Op, ['>', '<', '>=', '=<', '==', '=:=', '/=', '=/=', 'and', 'or', 'xor', 'andalso', 'orelse', '+', '-', '*', 'div', 'rem',
                      'band', 'bor', 'bxor', 'bsl', 'bsr', element, map_get, is_map_key])
        andalso 'ets fits'(X, Variables) andalso 'ets fits'(Y, Variables);
'ets fits'({Op, X, Y, Z}, Variables) when Op =:= 'and'; Op =:= 'or'; Op =:= 'andalso'; Op =:= 'orelse' ->
    'ets fit'([X, Y, Z], Variables);
'ets fits'(T, _) when is_tuple(T) -> false;
'ets fits'([H | T], Variables) -> 'ets fits'(H, Variables) andalso 'ets fits'(T, Variables);
'ets fits'(_, _) -> true.

%% The value of the last expression of the first clause that fits.
'ets select'([{Pattern, Guards, Body} | T], R) ->
    case 'ets matches'(Pattern, R, []) of
        false -> 'ets select'(T, R);
        Bound ->
            case 'ets hold'(Guards, Bound, R) of
                true -> {value, 'ets result'(lists:last(Body), Bound, R)};
                false -> 'ets select'(T, R)
            end
    end;
'ets select'([], _) -> none.

%% An expression that fails gives a word.
'ets result'(E, Bound, R) -> try 'ets value'(E, Bound, R) catch error:_ -> 'EXIT' end.

%% A guard that fails is no error: the clause does not fit.
'ets hold'([G | T], Bound, R) ->
    case catch 'ets value'(G, Bound, R) of
        true -> 'ets hold'(T, Bound, R);
        _ -> false
    end;
'ets hold'([], _, _) -> true.

%% What the variables of a pattern are bound to, or false.
'ets matches'('_', _, Bound) -> Bound;
'ets matches'(P, V, Bound) when is_atom(P) ->
    case 'ets variable'(P) of
        true ->
            case lists:keyfind(P, 1, Bound) of
                false -> [{P, V} | Bound];
                {_, V} -> Bound;
                _ -> false
            end;
        false when P =:= V -> Bound;
        false -> false
    end;
'ets matches'([P | Ps], [V | Vs], Bound) ->
    case 'ets matches'(P, V, Bound) of
        false -> false;
        Bound1 -> 'ets matches'(Ps, Vs, Bound1)
    end;
'ets matches'(P, P, Bound) -> Bound;
'ets matches'(P, V, Bound) when is_tuple(P), is_tuple(V) -> 'ets matches'(tuple_to_list(P), tuple_to_list(V), Bound);
'ets matches'(_, _, _) -> false.

'ets variable'(A) ->
    lists:member(A, ['$0', '$1', '$2', '$3', '$4', '$5', '$6', '$7', '$8', '$9', '$10', '$11', '$12', '$13', '$14', '$15', '$16']).

%% The bound values in the order of their variables' numbers.
'ets values'(Bound) ->
    [V || A <- ['$0', '$1', '$2', '$3', '$4', '$5', '$6', '$7', '$8', '$9', '$10', '$11', '$12', '$13', '$14', '$15', '$16'],
          {B, V} <- Bound, A =:= B].

'ets value'('$_', _, R) -> R;
'ets value'('$$', Bound, _) -> 'ets values'(Bound);
'ets value'(A, Bound, _) when is_atom(A) ->
    case lists:keyfind(A, 1, Bound) of
        {_, V} -> V;
        false ->
            case 'ets variable'(A) of
                true -> error(badarg);
                false -> A
            end
    end;
'ets value'({const, X}, _, _) -> X;
'ets value'({T}, Bound, R) when is_tuple(T) -> list_to_tuple(['ets value'(X, Bound, R) || X <- tuple_to_list(T)]);
'ets value'({self}, _, _) -> self();
'ets value'({node}, _, _) -> node();
'ets value'({Op, X, Y, Z}, Bound, R) -> 'ets value'({Op, X, {Op, Y, Z}}, Bound, R);
'ets value'({'andalso', X, Y}, Bound, R) -> case 'ets value'(X, Bound, R) of true -> 'ets value'(Y, Bound, R); false -> false end;
'ets value'({'orelse', X, Y}, Bound, R) -> case 'ets value'(X, Bound, R) of true -> true; false -> 'ets value'(Y, Bound, R) end;
'ets value'({Op, X}, Bound, R) -> 'ets of one'(Op, 'ets value'(X, Bound, R));
'ets value'({Op, X, Y}, Bound, R) -> 'ets of two'(Op, 'ets value'(X, Bound, R), 'ets value'(Y, Bound, R));
'ets value'([H | T], Bound, R) -> ['ets value'(H, Bound, R) | 'ets value'(T, Bound, R)];
'ets value'(X, _, _) -> X.

'ets of one'('not', A) -> not A;
'ets of one'('-', A) -> -A;
'ets of one'('abs', A) -> abs(A);
'ets of one'(hd, A) -> hd(A);
'ets of one'(tl, A) -> tl(A);
'ets of one'(length, A) -> length(A);
'ets of one'(tuple_size, A) -> tuple_size(A);
'ets of one'(is_integer, A) -> is_integer(A);
'ets of one'(is_number, A) -> is_number(A);
'ets of one'(is_atom, A) -> is_atom(A);
'ets of one'(is_list, A) -> is_list(A);
'ets of one'(is_tuple, A) -> is_tuple(A);
'ets of one'(is_pid, A) -> is_pid(A);
'ets of one'(is_reference, A) -> is_reference(A);
'ets of one'(is_float, _) -> false;
'ets of one'(is_binary, A) -> is_binary(A);
'ets of one'(is_function, A) -> is_function(A);
'ets of one'(is_map, A) -> is_map(A);
'ets of one'('bnot', A) -> bnot A;
'ets of one'(size, A) -> size(A);
'ets of one'(byte_size, A) -> byte_size(A);
'ets of one'(bit_size, A) -> bit_size(A);
'ets of one'(round, A) -> A + 0;
'ets of one'(trunc, A) -> A + 0;
'ets of one'(node, A) -> node(A);
'ets of one'(map_size, A) -> maps:size(A).

'ets of two'('>', A, B) -> A > B;
'ets of two'('<', A, B) -> A < B;
'ets of two'('>=', A, B) -> A >= B;
'ets of two'('=<', A, B) -> A =< B;
'ets of two'('==', A, B) -> A == B;
'ets of two'('=:=', A, B) -> A =:= B;
'ets of two'('/=', A, B) -> A /= B;
'ets of two'('=/=', A, B) -> A =/= B;
'ets of two'('and', A, B) -> A and B;
'ets of two'('or', A, B) -> A or B;
'ets of two'('xor', A, B) -> A xor B;
'ets of two'('+', A, B) -> A + B;
'ets of two'('-', A, B) -> A - B;
'ets of two'('*', A, B) -> A * B;
'ets of two'('div', A, B) -> A div B;
'ets of two'('rem', A, B) -> A rem B;
'ets of two'('band', A, B) -> A band B;
'ets of two'('bor', A, B) -> A bor B;
'ets of two'('bxor', A, B) -> A bxor B;
'ets of two'('bsl', A, B) -> A bsl B;
'ets of two'('bsr', A, B) -> A bsr B;
'ets of two'(element, A, B) -> element(A, B);
'ets of two'(map_get, A, B) -> maps:get(A, B);
'ets of two'(is_map_key, A, B) -> maps:is_key(A, B).
