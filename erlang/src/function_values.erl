%% Functions as values: each becomes a function of the module over the values that
%% it takes along, and in its place comes a tuple that says which (odd_tuples). A letrec
%% becomes functions too; what is applied but no name goes through `apply fun`.
-module(function_values).

-export([replace/4, apply_name/1]).

-include("core.hrl").

%%   created   new definitions, the latest first
%%   values    {Name, Arity, Taken}: functions that are values, with how many values they take along
%%   arities   of what is applied
%%   exports   what processes begin with
%%   names     how many have a name that was given
%%   several   functions of other modules, {M, F, A}, that are values in several places: they are equal, so they are one function
-record(work, {module, size, home, origin, created = [], values = [], arities = [], exports = [], names = #{}, several, ledger}).

%% All definitions without functions as values, and the new ones that have to be exported.
replace(Definitions, Module, Size, Ledger) ->
    {Done, Work} = rounds(Definitions, #work{module = Module, size = Size, several = several(Definitions, Module), ledger = Ledger}, []),
    Values = lists:usort(Work#work.values),
    Applies = [apply_fun:definition(Size, Arity, Values) || Arity <- lists:usort(Work#work.arities)],
    {Done ++ Applies, lists:usort(Work#work.exports), noted(Values, ledger:within(source, Work#work.ledger))}.

rounds([], Work, Done) -> {Done, Work};
rounds(Definitions, Work, Done) ->
    {Now, #work{created = New} = Work1} = lists:mapfoldl(fun definition/2, Work, Definitions),
    rounds(lists:reverse(New), Work1#work{created = []}, Done ++ Now).

noted([], L) -> L;
noted(_, L) -> ledger:note("functions are tuples here: they sort among tuples, element/2 and tuple_size/1 take them, "
                             "and two of one place and the same values are equal", [], L).

definition(#definition{code = #c_fun{body = Body} = Fun, home = Home, origin = Origin} = D, Work) ->
    Place = core_tree:place(Fun, {"", 0}),
    Here = Work#work{home = Home, origin = Origin, ledger = ledger:within(Origin, Work#work.ledger)},
    {New, Work1} = core_tree:walk(fun rule/3, Place, Here, Body),
    {D#definition{code = Fun#c_fun{body = New}}, Work1}.

apply_name(Arity) -> {'apply fun', Arity + 1}.

rule(#c_letrec{} = N, Place, W) -> lifted(N, Place, W);
rule(#c_fun{} = N, _, W) -> closed(N, W);
rule(#c_var{name = {F, A} = Name}, _, W) -> {done, odd_tuples:function(W#work.size, F, A, []), value({Name, A, 0}, W)};
rule(#c_apply{op = #c_var{name = {_, _}}, args = Args} = N, Place, W) ->
    {New, W1} = each(Args, Place, W),
    {done, N#c_apply{args = New}, W1};
rule(#c_apply{op = Op, args = Args} = N, Place, W) ->
    {New, W1} = each([Op | Args], Place, W),
    Arity = length(Args),
    {done, N#c_apply{op = core_tree:variable(apply_name(Arity)), args = New}, applied(Arity, W1)};
rule(#c_let{vars = [#c_var{name = V}], arg = Function, body = Body} = N, _, W) ->
    case is_begun(Function) andalso only_begins(V, Body) of
        true -> begun_in(V, Function, Body, W);
        false -> {inside, N, W}
    end;
rule(#c_call{module = #c_literal{val = erlang}, name = #c_literal{val = Spawn}, args = [Function]} = N, Place, W)
  when Spawn =:= spawn; Spawn =:= spawn_link; Spawn =:= spawn_monitor ->
    case is_begun(Function) of
        true ->
            {Args, W1} = begins(Function, W),
            {done, N#c_call{args = Args}, W1};
        false -> spawned(N, Place, W)
    end;
rule(Node, _, W) -> {inside, Node, W}.

each(Nodes, Place, W) -> lists:mapfoldl(fun(N, S) -> core_tree:walk(fun rule/3, Place, S, N) end, W, Nodes).

value(Value, #work{values = Values} = W) -> W#work{values = [Value | Values]}.
applied(Arity, #work{arities = As} = W) -> W#work{arities = [Arity | As]}.
export(Name, #work{exports = Es} = W) -> W#work{exports = [Name | Es]}.

%% ---- a fun

closed(#c_fun{vars = Vars} = Fun, #work{several = Several} = W) ->
    External = external(Fun),
    {Name, Taken, W1} = case lists:member(External, Several) of
        true -> shared(External, Fun, W);
        false -> create("fun in ", Fun, W)
    end,
    Arity = length(Vars),
    {done, odd_tuples:function(W#work.size, Name, Arity, Taken), value({{Name, Arity + length(Taken)}, Arity, length(Taken)}, W1)}.

external(#c_fun{anno = Notes}) -> proplists:get_value(external, Notes, none).

%% `named m:f` is made once. It has no line, since it is of no one place.
shared({M, F, A}, Fun, #work{names = Names} = W) ->
    Text = lists:concat(["named ", M, ":", F, "/", A]),
    Name = list_to_atom(lists:concat(["named ", M, ":", F])),
    case Names of
        #{Text := _} -> {Name, [], W};
        _ -> {Name, [], created({Name, A}, Fun, library, Text, W#work{names = Names#{Text => 1}})}
    end.

%% (what is not read is said of each place)
several(Definitions, Module) ->
    Find = fun(#c_fun{} = Fun, Sum) -> [External || External <- [external(Fun)], External =/= none, calls_known(Fun, Module)] ++ Sum;
              (_, Sum) -> Sum
           end,
    Found = lists:foldl(fun(#definition{code = Code}, Sum) -> core_tree:fold(Find, Sum, Code) end, [], Definitions),
    lists:usort(Found -- lists:usort(Found)).

%% A definition of this fun, with the variables that it takes along as its last parameters.
create(Kind, #c_fun{vars = Vars, body = Body} = Fun, W) ->
    Taken = [core_tree:variable(V) || V <- core_tree:free_variables(Fun), not is_tuple(V)],
    {Name, W1} = new_name(Kind, core_tree:first_place(Fun), W),
    New = Fun#c_fun{vars = Vars ++ Taken, body = Body},
    {Name, Taken, created({Name, length(Vars) + length(Taken)}, New, W1)}.

created(Name, Code, #work{home = Home, origin = Origin} = W) -> created(Name, Code, Origin, Home, W).

created(Name, Code, Origin, Home, #work{created = New} = W) ->
    W#work{created = [#definition{name = Name, code = Code, origin = Origin, home = Home} | New]}.

%% `fun in main/0 line 8`, with a number after it where there is one of that name.
new_name(Kind, Line, #work{home = Home, origin = Origin, names = Names} = W) ->
    Text = case Origin of
        source -> lists:concat([Kind, Home, " line ", Line]);
        _ -> lists:concat([Kind, Home])
    end,
    Number = maps:get(Text, Names, 0) + 1,
    Name = case Number of
        1 -> Text;
        _ -> lists:concat([Text, " number ", Number])
    end,
    {list_to_atom(Name), W#work{names = Names#{Text => Number}}}.

calls_known(#c_fun{body = #c_call{module = #c_literal{val = M}, name = #c_literal{val = F}, args = Args}}, Module) ->
    M =:= Module orelse known_calls:is_known(M, F, length(Args));
calls_known(_, _) -> true.

%% ---- where a process begins with a fun

is_begun(#c_fun{vars = []}) -> true;
is_begun(#c_var{name = {_, 0}}) -> true;
is_begun(_) -> false.

%% Whether each use of a variable is that a process begins with it.
only_begins(V, Body) ->
    Count = fun(#c_var{name = W}, {All, Begun}) when W =:= V -> {All + 1, Begun};
               (#c_call{module = #c_literal{val = erlang}, name = #c_literal{val = F}, args = [#c_var{name = W}]}, {All, Begun})
                 when W =:= V, (F =:= spawn orelse F =:= spawn_link orelse F =:= spawn_monitor) -> {All, Begun + 1};
               (_, Sum) -> Sum
            end,
    case core_tree:fold(Count, {0, 0}, Body) of
        {N, N} when N > 0 -> true;
        _ -> false
    end.

begun_in(V, Function, Body, W) ->
    {Args, W1} = begins(Function, W),
    Put = fun(#c_call{args = [#c_var{name = X}]} = C, _, S) when X =:= V -> {done, C#c_call{args = Args}, S};
             (Node, _, S) -> {inside, Node, S}
          end,
    {New, none} = core_tree:walk(Put, {"", 0}, none, Body),
    {again, New, W1}.

begins(#c_var{name = {F, 0} = Name}, W) -> {entry(W, F, core_tree:literal([])), export(Name, W)};
begins(#c_fun{} = Fun, W) ->
    {Name, Taken, W1} = create("fun in ", Fun, W),
    Arguments = lists:foldr(fun(V, T) -> #c_cons{hd = V, tl = T} end, core_tree:literal([]), Taken),
    {entry(W, Name, Arguments), export({Name, length(Taken)}, W1)}.

entry(#work{module = M}, Name, Arguments) -> [core_tree:literal(M), core_tree:literal(Name), Arguments].

%% A function that is a value: the process applies it. What is no function is refused at the call, and spawn_monitor refuses
%% one of another arity too.
spawned(#c_call{anno = Notes, name = #c_literal{val = Kind}, args = [Function]} = N, Place, W) ->
    {Value, W1} = core_tree:walk(fun rule/3, Place, W, Function),
    V = core_tree:variable('begun@'),
    {Apply, 1} = apply_name(0),
    Spawn = N#c_call{args = entry(W, Apply, #c_cons{hd = V, tl = core_tree:literal([])})},
    BadArgument = core_tree:raise_error(Notes, core_tree:literal(badarg)),
    Test = case Kind of
        spawn_monitor -> odd_tuples:has_arity(W#work.size, V, core_tree:literal(0));
        _ -> odd_tuples:is_any_function(W#work.size, V)
    end,
    Case = #c_case{anno = Notes, arg = Test,
                   clauses = [core_tree:clause([core_tree:literal(true)], Spawn),
                              core_tree:clause([core_tree:literal(false)], BadArgument)]},
    {done, #c_let{anno = Notes, vars = [V], arg = Value, body = Case}, export(apply_name(0), applied(0, W1))}.

%% ---- letrec

%% Its functions get the variables around them as last parameters, and each use hands these on.
lifted(#c_letrec{defs = Defs, body = Body} = N, Place, W) ->
    Free = ordsets:union([core_tree:free_variables(F) || {_, F} <- Defs]),
    Taken = [V || V <- Free, not is_tuple(V)],
    case [V || V <- Taken, lists:member(V, core_tree:bound_variables(N))] of
        [] -> lifted(Defs, Body, [core_tree:variable(V) || V <- Taken], W);
        _ ->
            Fault = {"a function that binds a variable again", "a function here binds a variable again that it uses, which is not read"},
            {New, L} = stops:instead(Fault, [], Place, W#work.home, W#work.ledger),
            {done, New, W#work{ledger = L}}
    end.

lifted(Defs, Body, Taken, W) ->
    {Names, W1} = lists:foldl(fun(D, S) -> lifted_name(D, length(Taken), S) end, {#{}, W}, Defs),
    Uses = fun(Tree, S) -> core_tree:walk(fun(X, P, T) -> use(Names, Taken, X, P, T) end, {"", 0}, S, Tree) end,
    W2 = lists:foldl(fun({#c_var{name = Old}, #c_fun{vars = Vars, body = B} = F}, S) ->
                             {New, S1} = Uses(B, S),
                             created(maps:get(Old, Names), F#c_fun{vars = Vars ++ Taken, body = New}, S1)
                     end, W1, Defs),
    {NewBody, W3} = Uses(Body, W2),
    {again, NewBody, W3}.

lifted_name({#c_var{name = {Old, Arity} = Key}, Fun}, Taken, {Names, W}) ->
    {Name, W1} = new_name(kind(atom_to_list(Old)), core_tree:first_place(Fun), W),
    {Names#{Key => {Name, Arity + Taken}}, W1}.

kind("lc$^" ++ _) -> "comprehension in ";
kind("lbc$^" ++ _) -> "comprehension in ";
kind("after$^" ++ _) -> "after in ";
kind("clauses" ++ _) -> "clauses in ";
kind([C | _]) when C >= $A, C =< $Z; C =:= $_ -> "fun in ";
kind(_) -> "part of ".

use(Names, Taken, #c_apply{op = #c_var{name = {_, _} = Name} = Op, args = Args} = N, _, S) ->
    {New, S1} = lists:mapfoldl(fun(A, T) -> core_tree:walk(fun(X, P, Y) -> use(Names, Taken, X, P, Y) end, {"", 0}, T, A) end, S, Args),
    case Names of
        #{Name := Lifted} -> {done, N#c_apply{op = Op#c_var{name = Lifted}, args = New ++ Taken}, S1};
        _ -> {done, N#c_apply{args = New}, S1}
    end;
use(Names, Taken, #c_var{name = {_, Arity} = Name} = N, _, S) ->
    case Names of
        #{Name := {F, _} = Lifted} ->
            {done, odd_tuples:function(S#work.size, F, Arity, Taken), value({Lifted, Arity, length(Taken)}, S)};
        _ -> {done, N, S}
    end;
use(_, _, Node, _, S) -> {inside, Node, S}.
