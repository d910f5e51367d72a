%% Walks over Core Erlang, its variables and places, and short functions to make it.
-module(core_tree).

-export([walk/4, children/3, fold/3, free_variables/1, bound_variables/1, uses/2]).
-export([place/2, first_place/1, first_file/2]).
-export([atoms_of/2, atoms_as_values/1]).
-export([literal/1, variable/1, list/1, length_of/1, call/4, call_erlang/3, apply_to/3, clause/2, clause/3, is_simple/1, evaluated/2,
         raise_error/2]).

-include("core.hrl").

%% The tree as a rule rewrites it, from the top. Rule(Node, Place, State) says
%%   {again, Node, State}   look at this node, which takes the place of the old one
%%   {inside, Node, State}  go on with its children
%%   {done, Node, State}    leave it
%% Place is {File, Line} of the node, or of the nearest one around it that has one.
walk(Rule, Outer, State, Node) ->
    Place = place(Node, Outer),
    case Rule(Node, Place, State) of
        {again, New, State1} -> walk(Rule, Place, State1, New);
        {done, New, State1} -> {New, State1};
        {inside, New, State1} -> children(fun(Child, S) -> walk(Rule, Place, S, Child) end, State1, New)
    end.

%% The node with each child changed by Change(Child, State), in the order of evaluation.
children(Change, State, Node) ->
    lists:foldl(
        fun(Field, {N, S}) ->
            {Part, S1} = change_part(Change, element(Field, N), S),
            {setelement(Field, N, Part), S1}
        end, {Node, State}, fields(Node)).

%% A child, a list of them, or a definition of a letrec with its name.
change_part(Change, Parts, S) when is_list(Parts) -> lists:mapfoldl(fun(P, T) -> change_part(Change, P, T) end, S, Parts);
change_part(Change, {#c_var{} = Name, Fun}, S0) -> {F, S} = Change(Fun, S0), {{Name, F}, S};
change_part(Change, Child, S) -> Change(Child, S).

%% The fields of a node that hold its children, in the order of evaluation. A node of another kind has none: no pass
%% knows it, and readable refuses it.
fields(#c_alias{}) -> [#c_alias.var, #c_alias.pat];
fields(#c_apply{}) -> [#c_apply.op, #c_apply.args];
fields(#c_binary{}) -> [#c_binary.segments];
fields(#c_bitstr{}) -> [#c_bitstr.val, #c_bitstr.size];
fields(#c_call{}) -> [#c_call.module, #c_call.name, #c_call.args];
fields(#c_case{}) -> [#c_case.arg, #c_case.clauses];
fields(#c_catch{}) -> [#c_catch.body];
fields(#c_clause{}) -> [#c_clause.pats, #c_clause.guard, #c_clause.body];
fields(#c_cons{}) -> [#c_cons.hd, #c_cons.tl];
fields(#c_fun{}) -> [#c_fun.body];
fields(#c_let{}) -> [#c_let.arg, #c_let.body];
fields(#c_letrec{}) -> [#c_letrec.defs, #c_letrec.body];
fields(#c_map{}) -> [#c_map.arg, #c_map.es];
fields(#c_map_pair{}) -> [#c_map_pair.key, #c_map_pair.val];
fields(#c_primop{}) -> [#c_primop.args];
fields(#c_receive{}) -> [#c_receive.clauses, #c_receive.timeout, #c_receive.action];
fields(#c_seq{}) -> [#c_seq.arg, #c_seq.body];
fields(#c_try{}) -> [#c_try.arg, #c_try.body, #c_try.handler];
fields(#c_tuple{}) -> [#c_tuple.es];
fields(#c_values{}) -> [#c_values.es];
fields(_) -> [].

%% Collect(Node, Sum) of each node, from the top.
fold(Collect, Sum, Node) ->
    {_, Sum1} = children(fun(Child, S) -> {Child, fold(Collect, S, Child)} end, Collect(Node, Sum), Node),
    Sum1.

%% The variables and function names of a tree that are not bound in it, in order.
free_variables(#c_var{name = V}) -> [V];
free_variables(#c_let{vars = Vs, arg = A, body = B}) ->
    ordsets:union(free_variables(A), without(Vs, free_variables(B)));
free_variables(#c_fun{vars = Vs, body = B}) -> without(Vs, free_variables(B));
free_variables(#c_letrec{defs = Ds, body = B}) ->
    Inside = [free_variables(F) || {_, F} <- Ds],
    without([V || {V, _} <- Ds], ordsets:union([free_variables(B) | Inside]));
free_variables(#c_try{arg = A, vars = Vs, body = B, evars = Es, handler = H}) ->
    ordsets:union([free_variables(A), without(Vs, free_variables(B)), without(Es, free_variables(H))]);
free_variables(#c_clause{pats = Ps, guard = G, body = B}) ->
    Bound = ordsets:from_list(lists:append([pattern_variables(P) || P <- Ps])),
    Keys = ordsets:union([pattern_keys(P) || P <- Ps]),
    Rest = ordsets:union(free_variables(G), free_variables(B)),
    ordsets:union(Keys, ordsets:subtract(Rest, Bound));
free_variables(Node) ->
    {_, Free} = children(fun(C, S) -> {C, ordsets:union(S, free_variables(C))} end, [], Node),
    Free.

without(Vars, Free) -> ordsets:subtract(Free, ordsets:from_list(names(Vars))).

%% Each variable that a tree binds somewhere.
bound_variables(Tree) ->
    fold(fun(#c_let{vars = Vs}, S) -> names(Vs) ++ S;
            (#c_fun{vars = Vs}, S) -> names(Vs) ++ S;
            (#c_try{vars = Vs, evars = Es}, S) -> names(Vs) ++ names(Es) ++ S;
            (#c_clause{pats = Ps}, S) -> lists:append([pattern_variables(P) || P <- Ps]) ++ S;
            (_, S) -> S
         end, [], Tree).

%% How often a tree uses a variable.
uses(Variable, Tree) -> fold(fun(#c_var{name = V}, N) when V =:= Variable -> N + 1; (_, N) -> N end, 0, Tree).

names(Vars) -> [V || #c_var{name = V} <- Vars].

%% A key of a map pattern is an expression, and binds nothing.
pattern_variables(#c_var{name = V}) -> [V];
pattern_variables(#c_map_pair{val = V}) -> pattern_variables(V);
pattern_variables(#c_bitstr{val = V}) -> pattern_variables(V);
pattern_variables(Pattern) ->
    {_, Vs} = children(fun(C, S) -> {C, pattern_variables(C) ++ S} end, [], Pattern),
    Vs.

pattern_keys(#c_var{}) -> [];
pattern_keys(#c_map_pair{key = K, val = V}) -> ordsets:union(free_variables(K), pattern_keys(V));
pattern_keys(#c_bitstr{val = V, size = Z}) -> ordsets:union(free_variables(Z), pattern_keys(V));
pattern_keys(Pattern) ->
    {_, Vs} = children(fun(C, S) -> {C, ordsets:union(pattern_keys(C), S)} end, [], Pattern),
    Vs.

%% {File, Line} as the notes of a node say it.
place(Node, Outer) ->
    case {line(element(2, Node)), Outer} of
        {none, _} -> Outer;
        {Line, {OuterFile, _}} -> {proplists:get_value(file, element(2, Node), OuterFile), Line}
    end.

line([{Line, Column} | _]) when is_integer(Line), is_integer(Column) -> Line;
line([Line | _]) when is_integer(Line) -> Line;
line([_ | Notes]) -> line(Notes);
line([]) -> none.

%% The least line of a tree, 0 where it has none. A variable that is bound outside has the line of there, which does not
%% count.
first_place(Tree) ->
    Free = free_variables(Tree),
    Lines = fold(fun(Node, Sum) -> lines_of(Node, Free) ++ Sum end, [], Tree),
    case Lines of [] -> 0; _ -> lists:min(Lines) end.

%% The file of the first node of a tree that names one, or else this one.
first_file(Tree, Else) ->
    Find = fun(Node, none) -> proplists:get_value(file, element(2, Node), none); (_, File) -> File end,
    case fold(Find, none, Tree) of none -> Else; File -> File end.

lines_of(Node, Free) ->
    IsOutside = is_record(Node, c_var) andalso lists:member(Node#c_var.name, Free),
    case line(element(2, Node)) of
        none -> [];
        _ when IsOutside -> [];
        Line -> [Line]
    end.

%% ---- atoms

%% The sum, #{Atom => true}, with the atoms of a value.
atoms_of(V, Sum) when is_atom(V) -> Sum#{V => true};
atoms_of([H | T], Sum) -> atoms_of(T, atoms_of(H, Sum));
atoms_of(V, Sum) when is_tuple(V) -> atoms_of(tuple_to_list(V), Sum);
atoms_of(V, Sum) when is_map(V) -> atoms_of(maps:to_list(V), Sum);
atoms_of(_, Sum) -> Sum.

%% The atoms of trees, in patterns too, but not the names of what is called: #{Atom => true}.
atoms_as_values(Trees) ->
    lists:foldl(fun(Tree, Sum) -> {_, Sum1} = walk(fun atom_rule/3, {"", 0}, Sum, Tree), Sum1 end, #{}, Trees).

atom_rule(#c_call{module = #c_literal{}, name = #c_literal{}} = N, _, Sum) -> {inside, N#c_call{module = literal([]), name = literal([])}, Sum};
atom_rule(#c_literal{val = V} = N, _, Sum) -> {done, N, atoms_of(V, Sum)};
atom_rule(N, _, Sum) -> {inside, N, Sum}.

%% ---- nodes that are made

literal(Value) -> #c_literal{val = Value}.

variable(Name) -> #c_var{name = Name}.

list(Nodes) -> lists:foldr(fun(N, T) -> #c_cons{hd = N, tl = T} end, literal([]), Nodes).

%% How long a list is, or none where that is computed.
length_of(#c_literal{val = V}) when length(V) >= 0 -> length(V);
length_of(#c_cons{tl = Tail}) ->
    case length_of(Tail) of
        none -> none;
        N -> N + 1
    end;
length_of(_) -> none.

call(Notes, Module, Name, Arguments) ->
    #c_call{anno = Notes, module = literal(Module), name = literal(Name), args = Arguments}.

call_erlang(Notes, Name, Arguments) -> call(Notes, erlang, Name, Arguments).

apply_to(Notes, FunctionName, Arguments) ->
    #c_apply{anno = Notes, op = variable(FunctionName), args = Arguments}.

clause(Patterns, Body) -> clause(Patterns, literal(true), Body).

clause(Patterns, Guard, Body) -> #c_clause{pats = Patterns, guard = Guard, body = Body}.

raise_error(Notes, Reason) -> call_erlang(Notes, error, [Reason]).

%% Whether a value is there without a step and without an error.
is_simple(#c_literal{}) -> true;
is_simple(#c_var{}) -> true;
is_simple(#c_cons{hd = H, tl = T}) -> is_simple(H) andalso is_simple(T);
is_simple(#c_tuple{es = Es}) -> lists:all(fun is_simple/1, Es);
is_simple(_) -> false.

%% The body after what of the values can be seen.
evaluated(Values, Body) ->
    lists:foldr(fun(V, B) -> case is_simple(V) of true -> B; false -> #c_seq{arg = V, body = B} end end, Body, Values).
