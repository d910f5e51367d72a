%% Where the order of the objects of a set or a bag may matter, or that of what a process keeps for itself: the real machine
%% promises none, and here it is that of the keys. A walk is doubted unless what it gives is plainly used in a way that is the
%% same in each order.
-module(table_order).

-export([find/3]).

-include("core.hrl").

%% How a value is used:
%%   order     in a way that may show in which order its parts are
%%   free      in a way that is the same in each order
%%   dropped   not at all, not even parts of it
%%
%%   tables    the kinds of tables, and in bound those of variables
%%   values    the functions and calls whose values variables plainly have
%%   used      how each variable is used in what was looked at
%%   found     [{Place, Text}]
-record(scope, {tables, bound, values, used = #{}, found = []}).

%% The ledger with a doubt for each such walk of the definitions.
find(Definitions, Tables, Ledger) -> lists:foldl(fun(D, L) -> of_definition(D, Tables, L) end, Ledger, Definitions).

of_definition(#definition{name = Name, code = #c_fun{body = Body} = Code}, Tables, Ledger) ->
    Values = core_tree:fold(fun(#c_let{vars = [#c_var{name = V}], arg = Value}, Sum) -> Sum#{V => Value}; (_, Sum) -> Sum end, #{}, Code),
    Use = case Name of {main, 0} -> dropped; _ -> order end,
    Empty = #scope{tables = Tables, bound = table_kinds:bound(Code, Tables), values = Values},
    Scope = look(Body, core_tree:place(Code, {"", 0}), Use, Empty),
    lists:foldl(fun doubted/2, Ledger, Scope#scope.found).

doubted({Place, Text}, Ledger) -> ledger:doubt(Place, Text, Ledger).

walk_text({F, A}, {File, Line}) ->
    io_lib:format("a set or a bag is in the order of its keys here, and in Erlang ets:~ts/~w at ~ts:~w may give another order",
                  [F, A, filename:basename(File), Line]).

dictionary_text({F, A}, {File, Line}) ->
    io_lib:format("a process dictionary is in the order of its keys here, and in Erlang erlang:~ts/~w at ~ts:~w may give another order",
                  [F, A, filename:basename(File), Line]).

insert_text({F, A}, {File, Line}) ->
    io_lib:format("a bag keeps the order of a list here, and in Erlang ets:~ts/~w at ~ts:~w puts in its last object first",
                  [F, A, filename:basename(File), Line]).

%% ---- how each part is used

%% What comes after a variable is bound is looked at first: it says how the value is used.
look(#c_var{name = V}, _, Use, #scope{used = Used} = S) -> S#scope{used = Used#{V => more(Use, maps:get(V, Used, dropped))}};
look(#c_call{module = #c_literal{val = M}, name = #c_literal{val = F}, args = Args} = Call, Outer, Use, S) when is_atom(M), is_atom(F) ->
    Place = core_tree:place(Call, Outer),
    looked(lists:zip(Args, uses({M, F}, Args, Use, S)), Place, walked(Call, Place, Use, S));
look(#c_let{vars = [#c_var{name = V}], arg = Arg, body = Body} = N, Outer, Use, S) ->
    Place = core_tree:place(N, Outer),
    After = look(Body, Place, Use, S),
    look(Arg, Place, use_of(V, After), After);
look(#c_let{arg = Arg, body = Body} = N, Outer, Use, S) -> looked([{Body, Use}, {Arg, order}], core_tree:place(N, Outer), S);
look(#c_seq{arg = Arg, body = Body} = N, Outer, Use, S) -> looked([{Body, Use}, {Arg, dropped}], core_tree:place(N, Outer), S);
look(#c_case{arg = Arg, clauses = Clauses} = N, Outer, Use, S) ->
    Place = core_tree:place(N, Outer),
    After = looked([{C, Use} || C <- Clauses], Place, S),
    Values = case Arg of #c_values{es = Es} -> Es; _ -> [Arg] end,
    looked(zipped(Values, [of_column(Column, After) || Column <- columns(Clauses)]), Place, After);
look(#c_clause{guard = Guard, body = Body}, Place, Use, S) -> looked([{Body, Use}, {Guard, order}], Place, S);
look(#c_try{arg = Arg, vars = Vars, body = Body, handler = Handler} = N, Outer, Use, S) ->
    Place = core_tree:place(N, Outer),
    After = looked([{Handler, Use}, {Body, Use}], Place, S),
    look(Arg, Place, case Vars of [#c_var{name = V}] -> use_of(V, After); _ -> order end, After);
look(#c_letrec{defs = Defs, body = Body} = N, Outer, Use, S) ->
    looked([{Body, Use} | [{F, of_function(Name, Use)} || {#c_var{name = {Name, _}}, F} <- Defs]], core_tree:place(N, Outer), S);
look(#c_apply{op = #c_var{name = {Name, _}}, args = [First | Others]} = N, Outer, Use, S) ->
    looked([{First, of_function(Name, Use)} | [{Arg, order} || Arg <- Others]], core_tree:place(N, Outer), S);
look(#c_fun{body = Body} = N, Outer, Use, S) -> look(Body, core_tree:place(N, Outer), Use, S);
look(#c_cons{hd = Head, tl = Tail}, Place, free, S) -> looked([{Head, order}, {Tail, free}], Place, S);
look(#c_primop{name = #c_literal{val = match_fail}}, _, _, S) -> S;
look(N, Outer, Use, S) ->
    Place = core_tree:place(N, Outer),
    {_, S1} = core_tree:children(fun(Child, T) -> {Child, look(Child, Place, of_child(N, Use), T)} end, S, N),
    S1.

looked(Parts, Place, S) -> lists:foldl(fun({Part, Use}, T) -> look(Part, Place, Use, T) end, S, Parts).

use_of(V, #scope{used = Used}) -> maps:get(V, Used, dropped).

more(A, B) ->
    case lists:member(order, [A, B]) of
        true -> order;
        false -> hd([free || A =:= free orelse B =:= free] ++ [dropped])
    end.

of_child(#c_catch{}, Use) -> Use;
of_child(#c_receive{}, Use) -> Use;
of_child(#c_values{}, Use) -> Use;
of_child(_, dropped) -> dropped;
of_child(_, _) -> order.

zipped([Value | Values], [Other | Others]) -> [{Value, Other} | zipped(Values, Others)];
zipped(_, _) -> [].

%% How what such a function gives is used, and what a comprehension goes over: as the expression of which the compiler made
%% the function, a comprehension or a receive. Of a function of the source it is not followed.
of_function(Name, Use) ->
    case lists:any(fun(Made) -> lists:prefix(Made, atom_to_list(Name)) end, ["lc$^", "recv$^", "after$^"]) of
        true -> Use;
        false -> order
    end.

walked(#c_call{module = #c_literal{val = ets}, name = #c_literal{val = F}, args = Args}, Place, Use, S) ->
    IsWalk = of_walk(F, Args, Use, S) =:= order andalso is_walk(F, Args, S),
    IsInsert = (F =:= insert orelse F =:= insert_new) andalso is_turned(Args, S),
    Call = {F, length(Args)},
    S#scope{found = [{Place, walk_text(Call, Place)} || IsWalk] ++ [{Place, insert_text(Call, Place)} || IsInsert] ++ S#scope.found};
walked(#c_call{module = #c_literal{val = erlang}, name = #c_literal{val = F}, args = Args}, Place, order, S) ->
    Call = {F, length(Args)},
    IsList = lists:member(Call, [{get, 0}, {get_keys, 0}, {get_keys, 1}, {erase, 0}]),
    S#scope{found = [{Place, dictionary_text(Call, Place)} || IsList] ++ S#scope.found};
walked(_, _, _, S) -> S.

%% Whether objects of one key may come into a bag as a list, where the table may be something else too: of what is plainly a
%% bag table_forms.erl turns the list.
is_turned([Table, Objects], #scope{tables = Tables, bound = Bound}) ->
    Kinds = table_kinds:possible(Table, Bound, Tables),
    Keys = [key(O) || O <- objects(Objects)],
    lists:member(bag, Kinds) andalso Kinds =/= [bag] andalso length(Keys) > 1
        andalso not (lists:all(fun is_closed/1, Keys) andalso length(lists:usort([V || #c_literal{val = V} <- Keys])) =:= length(Keys));
is_turned(_, _) -> false.

%% The objects of a list; of what is computed it is not known how many they are.
objects(#c_tuple{} = Object) -> [Object];
objects(#c_cons{hd = H, tl = T}) -> [H | objects(T)];
objects(#c_literal{val = [H | T]}) -> [core_tree:literal(H) | objects(core_tree:literal(T))];
objects(#c_literal{}) -> [];
objects(Computed) -> [Computed, Computed].

of_walk(F, [Function, _, _], Use, S) when F =:= foldl; F =:= foldr -> of_fold(Function, Use, S);
of_walk(_, _, Use, _) -> Use.

%% What asks for many objects, of a table that may be neither an ordered set nor asked for one key.
is_walk(F, [Table | _] = Args, #scope{tables = Tables, bound = Bound} = S) ->
    Walks = [{tab2list, 1}, {first, 1}, {last, 1}, {next, 2}, {prev, 2}, {foldl, 3}, {foldr, 3}]
        ++ [{Name, A} || Name <- [match, match_object, select, select_reverse], A <- [1, 2, 3]],
    Named = case F of foldl -> lists:last(Args); foldr -> lists:last(Args); _ -> Table end,
    lists:member({F, length(Args)}, Walks) andalso table_kinds:possible(Named, Bound, Tables) =/= [ordered_set]
        andalso not has_one_key(F, Args, S).

has_one_key(F, [_, Pattern | _], #scope{tables = Tables}) when F =:= match; F =:= match_object ->
    not table_kinds:mentions(keypos, Tables) andalso is_closed(key(Pattern));
has_one_key(_, _, _) -> false.

key(#c_tuple{es = [Key | _]}) -> Key;
key(#c_literal{val = V}) when is_tuple(V), tuple_size(V) > 0 -> core_tree:literal(element(1, V));
key(_) -> none.

is_closed(#c_literal{val = V}) -> is_closed_value(V);
is_closed(_) -> false.

is_closed_value(V) when is_atom(V) -> V =/= '_' andalso hd(atom_to_list(V) ++ "-") =/= $$;
is_closed_value([H | T]) -> is_closed_value(H) andalso is_closed_value(T);
is_closed_value(V) when is_tuple(V) -> is_closed_value(tuple_to_list(V));
is_closed_value(V) -> not is_map(V).

%% ---- patterns

%% The patterns of each value.
columns([#c_clause{pats = Patterns} | _] = Clauses) ->
    [[lists:nth(I, Ps) || #c_clause{pats = Ps} <- Clauses] || I <- lists:seq(1, length(Patterns))].

of_column(Patterns, S) ->
    case lists:all(fun(P) -> is_free(P, S) end, Patterns) of
        true -> free;
        false -> order
    end.

%% A pattern that a value meets in each order or in none, where what comes after does not ask for the order.
is_free(#c_var{name = V}, S) -> use_of(V, S) =/= order;
is_free(#c_alias{var = Var, pat = P}, S) -> is_free(Var, S) andalso is_free(P, S);
is_free(#c_cons{tl = #c_literal{val = []}}, _) -> true;
is_free(#c_cons{hd = #c_var{name = H}, tl = #c_var{name = T}}, S) -> use_of(H, S) =:= dropped andalso use_of(T, S) =:= dropped;
is_free(#c_literal{val = [_, _ | _]}, _) -> false;
is_free(#c_literal{}, _) -> true;
is_free(_, _) -> false.

%% ---- calls

%% How a call uses its arguments, where what it gives is used so.
uses({erlang, F}, [_, #c_literal{val = V}], _, _) when F =:= '=:='; F =:= '=='; F =:= '=/='; F =:= '/=' -> [small(V), dropped];
uses({erlang, F}, [#c_literal{val = V}, _], _, _) when F =:= '=:='; F =:= '=='; F =:= '=/='; F =:= '/=' -> [dropped, small(V)];
uses({erlang, length}, [_], _, _) -> [free];
uses({erlang, '++'}, [_, _], Use, _) -> [Use, Use];
uses({erlang, F}, [_], _, _) when F =:= spawn; F =:= spawn_link; F =:= spawn_monitor -> [dropped];
uses({io, _}, Args, _, _) -> [dropped || _ <- Args];
uses({lists, F}, [_], _, _) when F =:= sort; F =:= usort; F =:= sum; F =:= max; F =:= min -> [free];
uses({ordsets, from_list}, [_], _, _) -> [free];
uses({lists, F}, [_, _], _, _) when F =:= member; F =:= all; F =:= any -> [order, free];
uses({lists, keymember}, [_, _, _], _, _) -> [order, order, free];
uses({lists, keysort}, [#c_literal{val = 1}, Sorted], _, S) -> [dropped, by_keys(value(Sorted, S), all_kinds(), S)];
uses({maps, from_list}, [Pairs], _, S) -> [by_keys(value(Pairs, S), [set, ordered_set], S)];
uses({lists, foreach}, [_, _], _, _) -> [dropped, free];
uses({lists, F}, [_, _], Use, _) when F =:= map; F =:= filter; F =:= filtermap; F =:= flatmap -> [order, Use];
uses({lists, reverse}, [_], Use, _) -> [Use];
uses({lists, F}, [Function, _, _], Use, S) when F =:= foldl; F =:= foldr -> [order, order, of_fold(Function, Use, S)];
uses(_, Args, _, _) -> [order || _ <- Args].

%% What is compared with a value that has no two parts in an order.
small([_, _ | _]) -> order;
small(_) -> free.

%% All objects of a table of one of these kinds, by their keys: those of one key are in the order in which they came.
by_keys(#c_call{module = #c_literal{val = ets}, name = #c_literal{val = tab2list}, args = [Table]}, Kinds, S) ->
    #scope{tables = Tables, bound = Bound} = S,
    case table_kinds:mentions(keypos, Tables) orelse table_kinds:possible(Table, Bound, Tables) -- Kinds of
        [] -> free;
        _ -> order
    end;
by_keys(_, _, _) -> order.

all_kinds() -> [set, bag, duplicate_bag, ordered_set].

%% The expression whose value a variable plainly has.
value(#c_var{name = V} = Node, #scope{values = Values}) -> maps:get(V, Values, Node);
value(Node, _) -> Node.

%% How a fold uses what it goes over: what adds up is the same in each order, and what collects is a list.
of_fold(_, dropped, _) -> dropped;
of_fold(Function, Use, S) -> of_fold_with(value(Function, S), Use).

of_fold_with(#c_fun{vars = [_, #c_var{name = A}], body = Body}, Use) ->
    case {ends(fun is_sum/2, Body, [A]), ends(fun is_list_of/2, Body, [A])} of
        {true, _} -> free;
        {_, true} -> Use;
        _ -> order
    end;
of_fold_with(_, _) -> order.

%% Whether each way through a function ends in such an expression of what was folded before, which these variables are.
ends(Is, #c_case{arg = Arg, clauses = Clauses}, Before) ->
    Values = case Arg of #c_values{es = Es} -> Es; _ -> [Arg] end,
    lists:all(fun(#c_clause{pats = Patterns, guard = Guard, body = Body}) ->
                      Names = [V || {#c_var{name = Value}, #c_var{name = V}} <- zipped(Values, Patterns), lists:member(Value, Before)],
                      is_without(Guard, Before ++ Names) andalso ends(Is, Body, Before ++ Names)
              end, Clauses) andalso [] =:= [V || V <- Values, not is_record(V, c_var), not is_without(V, Before)];
ends(Is, #c_let{vars = [_], arg = Arg, body = Body}, Before) -> is_without(Arg, Before) andalso ends(Is, Body, Before);
ends(_, #c_primop{}, _) -> true;
ends(Is, Node, Before) -> Is(Node, Before).

%% A sum of what was before and of what comes from the object alone.
is_sum(#c_var{name = V}, Before) -> lists:member(V, Before);
is_sum(#c_call{module = #c_literal{val = erlang}, name = #c_literal{val = F}, args = [X, Y]}, Before) when F =:= '+'; F =:= '-' ->
    is_sum(X, Before) andalso is_without(Y, Before) orelse F =:= '+' andalso is_sum(Y, Before) andalso is_without(X, Before);
is_sum(_, _) -> false.

is_list_of(#c_var{name = V}, Before) -> lists:member(V, Before);
is_list_of(#c_cons{hd = Head, tl = Tail}, Before) -> is_without(Head, Before) andalso is_list_of(Tail, Before);
is_list_of(_, _) -> false.

%% An expression that does not use these variables, and neither steps nor what the process keeps for itself.
is_without(Node, Names) ->
    Steps = core_tree:fold(fun(#c_apply{}, _) -> true;
                              (#c_receive{}, _) -> true;
                              (#c_call{module = #c_literal{val = erlang}, name = #c_literal{val = F}, args = Args}, Sum) ->
                                   Sum orelse known_calls:is_request(erlang, F, length(Args))
                                       orelse known_calls:is_of_dictionary(erlang, F, length(Args));
                              (#c_call{}, _) -> true;
                              (_, Sum) -> Sum
                           end, false, Node),
    not Steps andalso [] =:= [V || V <- core_tree:free_variables(Node), lists:member(V, Names)].
