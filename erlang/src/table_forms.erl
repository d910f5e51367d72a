%% Calls of ets that are said in another way here, as far as the source shows which table is meant and what is asked.
-module(table_forms).

-export([replace/2, asked/1, settle/2]).

-include("core.hrl").

-record(scope, {tables, bound, is_fixed}).

%% A definition of a module with its calls of ets as they have to be here.
replace(#definition{origin = library} = D, _) -> D;
replace(#definition{code = Code} = D, Tables) ->
    IsFixed = table_kinds:mentions(safe_fixtable, Tables),
    D#definition{code = replaced(Code, #scope{tables = Tables, bound = table_kinds:bound(Code, Tables), is_fixed = IsFixed})}.

replaced(Code, Scope) ->
    {New, none} = core_tree:walk(fun(N, _, none) -> {inside, rule(N, Scope), none} end, {"", 0}, none, Code),
    New.

rule(#c_call{module = #c_literal{val = ets}, name = #c_literal{val = F}, args = [Table, Objects]} = N, S)
  when F =:= insert; F =:= insert_new ->
    case table_kinds:possible(Table, S#scope.bound, S#scope.tables) of
        [bag] -> N#c_call{args = [Table, last_first(Objects)]};
        _ -> N
    end;
rule(#c_call{module = #c_literal{val = ets} = M, name = #c_literal{val = F}} = N, #scope{is_fixed = true}) when F =:= next; F =:= prev ->
    N#c_call{module = M#c_literal{val = 'fixed table'}};
rule(N, _) -> asked_for(N).

%% The objects of a list come into a bag from the last to the first.
last_first(#c_tuple{} = Object) -> Object;
last_first(#c_literal{val = V} = N) when length(V) > 1 -> N#c_literal{val = lists:reverse(V)};
last_first(#c_literal{} = N) -> N;
last_first(#c_cons{tl = #c_literal{val = []}} = N) -> N;
last_first(#c_cons{} = N) ->
    case core_tree:is_simple(N) andalso turned(N, core_tree:literal([])) of
        #c_cons{} = Turned -> Turned;
        _ -> last_first_of(N)
    end;
last_first(N) -> last_first_of(N).

last_first_of(N) -> core_tree:call([], bag, 'last first', [N]).

turned(#c_cons{hd = H, tl = T} = N, Sum) -> turned(T, N#c_cons{tl = Sum, hd = H});
turned(#c_literal{val = V}, Sum) when length(V) >= 0 -> lists:foldl(fun(X, S) -> #c_cons{hd = core_tree:literal(X), tl = S} end, Sum, V);
turned(_, _) -> false.

%% A code in which one item is asked for where it is asked of ets:info/1 only whether there is a table: that says it.
asked(Code) ->
    {New, none} = core_tree:walk(fun(N, _, none) -> {inside, asked_for(N), none} end, {"", 0}, none, Code),
    New.

asked_for(#c_case{arg = Asked, clauses = Clauses} = N) ->
    case lists:all(fun tells_undefined/1, Clauses) of
        true -> N#c_case{arg = one_item(Asked)};
        false -> N
    end;
asked_for(#c_let{vars = [#c_var{name = V}], arg = Asked, body = Body} = N) ->
    case core_tree:fold(fun(Node, Sum) -> uses(Node, V, Sum) end, {0, 0}, Body) of
        {Same, Same} -> N#c_let{arg = one_item(Asked)};
        _ -> N
    end;
asked_for(N) -> N.

one_item(#c_call{module = #c_literal{val = ets}, name = #c_literal{val = info}, args = [Table]} = N) ->
    N#c_call{args = [Table, core_tree:literal(type)]};
one_item(N) -> N.

%% How often a variable is used, and how often it is only asked of it whether it is undefined.
uses(#c_var{name = V}, V, {All, Asked}) -> {All + 1, Asked};
uses(#c_case{arg = #c_var{name = V}, clauses = Clauses}, V, {All, Asked}) ->
    case lists:all(fun tells_undefined/1, Clauses) of
        true -> {All, Asked + 1};
        false -> {All, Asked}
    end;
uses(#c_call{name = #c_literal{val = F}, args = [#c_var{name = V}, #c_literal{val = undefined}]}, V, {All, Asked})
  when F =:= '=:='; F =:= '=='; F =:= '=/='; F =:= '/=' -> {All, Asked + 1};
uses(_, _, Sum) -> Sum.

tells_undefined(#c_clause{pats = [#c_literal{val = V}]}) -> V =:= undefined;
tells_undefined(#c_clause{pats = [#c_var{name = V}], guard = Guard, body = Body}) ->
    not lists:member(V, core_tree:free_variables(Guard) ++ core_tree:free_variables(Body));
tells_undefined(_) -> false.

%% ---- what need not be asked when the program runs

%% The definitions with what the source says of its tables in the place of the functions of the library that ask it.
settle(Tables, Definitions) ->
    All = table_kinds:possible(any, #{}, Tables),
    [settled(D, All, Tables) || D <- Definitions].

settled(#definition{name = Name, origin = library, code = Fun} = D, All, Tables) ->
    case answer(Name, All, Tables) of
        none -> D;
        Answer -> D#definition{code = Fun#c_fun{body = core_tree:literal(Answer)}}
    end;
settled(D, _, _) -> D.

answer({'ets key position', 1}, _, Tables) ->
    case table_kinds:mentions(keypos, Tables) of
        true -> none;
        false -> 1
    end;
answer({'ets is ordered', 1}, All, _) -> all_or_none([ordered_set], All);
answer({'ets is a bag', 1}, All, _) -> all_or_none([bag, duplicate_bag], All);
answer(_, _, _) -> none.

all_or_none(Kinds, All) ->
    case {All -- Kinds, [K || K <- All, lists:member(K, Kinds)]} of
        {[], _} -> true;
        {_, []} -> false;
        _ -> none
    end.
