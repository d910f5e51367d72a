%% Clauses that ask what no pattern and no guard can say here: for keys of a map, for parts of a binary, or by a function in
%% a guard. Such a clause has the rest of what it asks in its body, and goes on with the clauses after it where that is not
%% so. In a receive, where no function can be applied, the guard asks for all of it. Maps and binaries that are made become
%% calls of the library.
-module(clause_forms).

-export([replace/4]).

-include("core.hrl").

%% Library is {Name, Arity} => function.
replace(Home, Library, Ledger, Tree) ->
    core_tree:walk(fun(N, P, L) -> rule({Home, Library}, N, P, L) end, {"", 0}, core_tree:fold(fun noted/2, Ledger, Tree), Tree).

noted(Node, L) ->
    Texts = [map_forms:text_of_note() || map_forms:is_map_here(Node)] ++ [binary_forms:text_of_note() || binary_forms:is_binary_here(Node)],
    lists:foldl(fun(Text, S) -> ledger:note(Text, [], S) end, L, Texts).

rule(_, #c_map{is_pat = false} = Map, _, L) -> {again, map_forms:changed(Map), L};
rule({Home, _}, #c_binary{} = Binary, Place, L) ->
    {New, L1} = binary_forms:made(Binary, Place, Home, L),
    {inside, New, L1};
rule(_, #c_primop{name = #c_literal{val = bs_init_writable}}, _, L) -> {done, odd_tuples:binary(core_tree:literal([])), L};
rule({Home, _}, #c_receive{clauses = Clauses} = Receive, Place, L) ->
    {New, L1} = lists:mapfoldl(fun(C, S) -> received(C, core_tree:place(C, Place), Home, S) end, L, Clauses),
    {inside, Receive#c_receive{clauses = New}, L1};
rule({Home, Library}, #c_case{clauses = Clauses} = Case, Place, L) ->
    case first_that_asks(Clauses, [], {Place, Home, Library}, L) of
        {none, New, L1} -> {inside, Case#c_case{clauses = New}, L1};
        {Before, Clause, Steps, After, L1} ->
            {N, L2} = ledger:number(L1),
            {again, tried(N, Case, Before, inner(Clause, Steps, Library), After), L2}
    end;
rule(_, Node, _, L) -> {inside, Node, L}.

%% The clauses before the first one that asks more than a clause can, that one and its steps, and those after it.
first_that_asks([], Before, _, L) -> {none, lists:reverse(Before), L};
first_that_asks([#c_clause{pats = Patterns, guard = Guard, body = Body} = C | T], Before, {Place, Home, Library} = Around, L) ->
    {Open, Steps, L1} = pattern_forms:opened(Patterns, core_tree:place(C, Place), Home, L),
    New = C#c_clause{pats = Open, guard = guard_forms:sizes(Guard)},
    case lists:all(fun is_bind/1, Steps) andalso not guard_forms:calls(New#c_clause.guard, Library) of
        true ->
            Bound = New#c_clause{guard = bound(Steps, New#c_clause.guard), body = bound(Steps, Body)},
            first_that_asks(T, [Bound | Before], Around, L1);
        false -> {lists:reverse(Before), New, Steps, T, L1}
    end.

is_bind({bind, _, _}) -> true;
is_bind(_) -> false.

%% ---- a case

%% case A of Before, Clause, After, where GoOn goes on after Clause: the clauses after it are a function of their own.
tried(Number, #c_case{anno = Notes, arg = Argument} = Case, Before, {#c_clause{pats = Patterns} = Clause, Body}, After) ->
    Values = [core_tree:variable(list_to_atom(lists:concat(["value", Number, "@", I]))) || I <- lists:seq(1, length(Patterns))],
    Rest = {list_to_atom("clauses" ++ integer_to_list(Number)), length(Values)},
    GoOn = core_tree:apply_to([], Rest, Values),
    Tries = Before ++ [Clause#c_clause{guard = core_tree:literal(true), body = Body(GoOn)}, core_tree:clause(Values, GoOn)],
    Function = #c_fun{vars = Values, body = Case#c_case{arg = as_values(Values), clauses = rest(After, Values)}},
    #c_let{anno = Notes, vars = Values, arg = Argument,
           body = #c_letrec{anno = Notes, defs = [{core_tree:variable(Rest), Function}],
                            body = Case#c_case{arg = as_values(Values), clauses = Tries}}}.

as_values([Value]) -> Value;
as_values(Values) -> #c_values{es = Values}.

%% The compiler leaves out no clause that can be needed.
rest([], Values) -> [core_tree:clause(Values, core_tree:raise_error([], core_tree:literal(case_clause)))];
rest(After, _) -> After.

%% The clause, and its body as a function of what goes on where it is not taken.
inner(#c_clause{guard = Guard, body = Body} = Clause, Steps, Library) ->
    {Clause, fun(GoOn) -> asked(Steps, GoOn, guarded(Guard, Body, GoOn, Library)) end}.

guarded(#c_literal{val = true}, Body, _, _) -> Body;
guarded(Guard, Body, GoOn, Library) ->
    case guard_forms:calls(Guard, Library) of
        false -> #c_case{arg = #c_values{es = []}, clauses = [core_tree:clause([], Guard, Body), core_tree:clause([], GoOn)]};
        true -> if_so(guard_forms:outside(Guard), core_tree:literal(true), Body, GoOn)
    end.

%% The steps one after the other.
asked([], _, Inner) -> Inner;
asked([{bind, _, _} = Bind | T], GoOn, Inner) -> bound([Bind], asked(T, GoOn, Inner));
asked([{is_map, Map}, {look, _, Map, _} = Look | T], GoOn, Inner) -> asked([Look | T], GoOn, Inner);
asked([{is_map, Map} | T], GoOn, Inner) ->
    if_so(core_tree:call_erlang([], is_map, [Map]), core_tree:literal(true), asked(T, GoOn, Inner), GoOn);
asked([{look, Key, Map, Pattern} | T], GoOn, Inner) ->
    if_so(core_tree:call([], 'map pattern', look, [Key, Map]), found(Pattern), asked(T, GoOn, Inner), GoOn);
asked([{ask, Call, Pattern} | T], GoOn, Inner) -> if_so(Call, Pattern, asked(T, GoOn, Inner), GoOn);
asked([{stop, Stop} | _], _, _) -> stops:as_body(Stop).

found(Pattern) -> #c_tuple{es = [core_tree:literal(ok), Pattern]}.

if_so(Value, Pattern, Yes, No) ->
    #c_case{arg = Value, clauses = [core_tree:clause([Pattern], Yes), core_tree:clause([core_tree:variable('other@')], No)]}.

%% What these steps name, where it is used.
bound(Binds, Tree) ->
    lists:foldr(fun({bind, #c_var{name = Name} = V, Value}, Body) ->
                        case lists:member(Name, core_tree:free_variables(Body)) of
                            true -> #c_let{vars = [V], arg = Value, body = Body};
                            false -> Body
                        end
                end, Tree, Binds).

%% ---- a receive

received(#c_clause{pats = Patterns, guard = Guard, body = Body} = Clause, Place, Home, L) ->
    {Open, Steps, L1} = pattern_forms:opened(Patterns, Place, Home, L),
    {Keys, Maps} = guard_forms:keys(guard_forms:sizes(Guard)),
    New = Clause#c_clause{pats = Open, guard = Keys},
    case {lists:any(fun needs_function/1, Steps), Maps ++ [Map || {look, _, Map, _} <- Steps]} of
        {true, _} ->
            Text = "a binary pattern in a receive is read where it has whole bytes of known sizes: match a variable otherwise",
            {New, ledger:refuse(Place, Home, Text, L1)};
        {false, []} -> {New#c_clause{guard = chosen(Steps, Keys), body = bound([S || S <- Steps, is_bind(S)], Body)}, L1};
        {false, _} -> looked(New, Steps, Maps, Place, Home, L1)
    end.

needs_function({ask, _, _}) -> true;
needs_function({stop, _}) -> true;
needs_function(_) -> false.

%% The guard asks for keys, and the body once more, for their values. Where a map has too many keys for a guard the message
%% is taken, and then the process stops.
looked(#c_clause{guard = Guard, body = Body} = Clause, Steps, Maps, Place, Home, L) ->
    What = "a map of more than 16 keys in the choice of a message",
    {Stop, L1} = stops:instead({What, [What, " is not read"]}, [], Place, Home, L),
    Stops = stops:as_body(Stop),
    True = core_tree:literal(true),
    Large = fun(If, Else) -> lists:foldr(fun(Map, T) -> if_so(guard_forms:is_large(Map), True, If, T) end, Else, Maps) end,
    Sized = [sized(S, Steps) || S <- Steps],
    {Clause#c_clause{guard = in_guard(Sized, Large(True, guard_forms:outside(Guard))),
                     body = asked([in_body(S) || S <- Sized], Stops, Large(Stops, Body))}, L1}.

%% A map of which keys are asked for, and one of which none are.
sized({is_map, Map}, Steps) ->
    case lists:keymember(Map, 3, Steps) of
        true -> {is_small, Map};
        false -> {is_map, Map}
    end;
sized(Step, _) -> Step.

in_body({is_small, Map}) -> {ask, guard_forms:is_large(Map), core_tree:literal(false)};
in_body(Step) -> Step.

chosen(Steps, Guard) ->
    case lists:all(fun is_bind/1, Steps) of
        true -> bound(Steps, Guard);
        false -> in_guard(Steps, guard_forms:outside(Guard))
    end.

in_guard([], Guard) -> Guard;
in_guard([{bind, _, _} = Bind | T], Guard) -> bound([Bind], in_guard(T, Guard));
in_guard([{is_map, Map} | T], Guard) ->
    if_so(core_tree:call_erlang([], is_map, [Map]), core_tree:literal(true), in_guard(T, Guard), core_tree:literal(false));
in_guard([{is_small, Map} | T], Guard) ->
    if_so(guard_forms:is_large(Map), core_tree:literal(true), core_tree:literal(true), in_guard(T, Guard));
in_guard([{look, Key, Map, Pattern} | T], Guard) ->
    if_so(guard_forms:map_with(Key, Map, core_tree:variable('item@')), found(Pattern), in_guard(T, Guard), core_tree:literal(false)).
