%% What of the converted functions the explorer would not read: each place is refused.
-module(readable).

-export([check/5, scope/2, in_guard/1, faults/2, is_past_limit/1]).

-include("core.hrl").

-record(scope, {module, exports, origin, home, guarded = false, ledger}).

check(File, Definitions, Module, Exports, Ledger) ->
    Scope = #scope{module = Module, exports = Exports, ledger = Ledger},
    Scope1 = lists:foldl(fun definition/2, Scope, Definitions),
    twice(File, [D#definition.name || D <- Definitions], Scope1#scope.ledger).

definition(#definition{name = {_, Arity}, origin = Origin, home = Home, code = #c_fun{body = Body} = Fun}, Scope) ->
    S = Scope#scope{origin = Origin, home = Home},
    Place = core_tree:place(Fun, {"", 0}),
    {_, S1} = core_tree:walk(fun rule/3, Place, S, Body),
    S2 = case Arity > 255 of
        true -> refuse(Place, "a function of ~w arguments, with those that it takes along, is not read", [Arity], S1);
        false -> S1
    end,
    case levels(Body) of
        Levels when Levels > 1000 -> refuse(Place, "a function of ~w levels is not read, only 1000: make several of it", [Levels], S2);
        _ -> S2
    end.

%% How deep constructs are nested, by the text: a line is noted in parentheses, which are a level;
%% a clause is none, and a list is one however long it is.
levels(#c_clause{} = N) -> deepest(N);
levels(#c_call{} = N) -> 2 + deepest(N);
levels(#c_apply{} = N) -> 2 + deepest(N);
levels(#c_primop{} = N) -> 2 + deepest(N);
levels(#c_receive{} = N) -> 2 + deepest(N);
levels(#c_cons{hd = Head, tl = #c_cons{} = Tail}) -> max(1 + levels(Head), levels(Tail));
levels(#c_literal{val = V}) -> literal_levels(V);
levels(N) -> 1 + deepest(N).

deepest(N) ->
    {_, Most} = core_tree:children(fun(Child, Most) -> {Child, max(Most, levels(Child))} end, 0, N),
    Most.

literal_levels([H | T]) when is_list(T) -> max(1 + literal_levels(H), literal_levels(T));
literal_levels([H | T]) -> 1 + max(literal_levels(H), literal_levels(T));
literal_levels(V) when is_tuple(V) -> 1 + lists:max([0 | [literal_levels(X) || X <- tuple_to_list(V)]]);
literal_levels(_) -> 1.

twice(File, Names, L) ->
    case Names -- lists:usort(Names) of
        [] -> L;
        [{F, A} | _] -> ledger:refuse_file(File, io_lib:format("two functions have the name ~ts/~w", [F, A]), L)
    end.

refuse(Place, Format, Arguments, #scope{home = Home, ledger = L} = S) ->
    S#scope{ledger = ledger:refuse(Place, Home, io_lib:format(Format, Arguments), L)}.

rule(#c_clause{pats = Patterns, guard = Guard, body = Body} = N, Place, #scope{guarded = Outer} = S) ->
    Each = fun(Tree, T) -> {_, T1} = core_tree:walk(fun rule/3, Place, T, Tree), T1 end,
    S1 = lists:foldl(Each, S, Patterns),
    S2 = Each(Guard, S1#scope{guarded = true}),
    {done, N, Each(Body, S2#scope{guarded = Outer})};
%% a stop has its name from the converter, and so has what is handed on to a stop
rule(#c_apply{op = #c_var{name = {'not read', 1}}} = N, _, S) -> {done, N, S};
rule(#c_apply{op = #c_var{name = Name}, args = [_ | _] = Args} = N, Place, S) ->
    Looked = case is_tuple(Name) andalso dispatchers:is_one(Name) of
        true -> lists:droplast(Args);
        false -> Args
    end,
    {_, S1} = lists:mapfoldl(fun(A, T) -> core_tree:walk(fun rule/3, Place, T, A) end, judged(N, Place, S), Looked),
    {done, N, S1};
rule(Node, Place, S) -> {goes_on(Node, faults(Node, S)), Node, judged(Node, Place, S)}.

judged(Node, Place, S) -> noted(Node, lists:foldl(fun({_, Text}, T) -> refuse(Place, "~ts", [Text], T) end, S, faults(Node, S))).

%% Whether the parts of a node are looked at: those of a form that is not read are not, but those of a call are.
goes_on(#c_call{}, _) -> inside;
goes_on(#c_apply{}, _) -> inside;
goes_on(_, []) -> inside;
goes_on(_, _) -> done.

noted(#c_catch{}, S) -> note("the stack trace in what catch gives of an error is [] here", S);
noted(#c_call{module = #c_literal{val = M}, name = #c_literal{val = F}, args = Args}, S) ->
    case is_answered(M, F, length(Args), S) andalso known_calls:objection(S#scope.module, {M, F, length(Args)}, Args) of
        {note, Text} -> note(Text, S);
        _ -> S
    end;
noted(_, S) -> S.

%% ---- what is not read

%% How nodes are judged: in a module that exports these functions, outside of guards; and inside of one.
scope(Module, Exports) -> #scope{module = Module, exports = Exports}.
in_guard(Scope) -> Scope#scope{guarded = true}.

%% What is not read of a node, without its parts: [{What, Text}], where Text says in a sentence that What is not read.
faults(#c_literal{val = V}, _) -> literal_faults(V);
faults(#c_map{}, _) -> unread("a map in this place");
faults(#c_primop{name = #c_literal{val = Name}, args = Args}, _) -> primop(Name, length(Args));
faults(#c_call{module = #c_literal{val = M}, name = #c_literal{val = F}, args = Args}, S) when is_atom(M), is_atom(F) ->
    call(M, F, Args, S);
faults(#c_call{}, _) -> unread("a call whose module or function is computed");
faults(#c_apply{op = #c_var{name = {F, A}}}, #scope{guarded = true}) -> unread([shown(F, A), " in a guard"]);
faults(Node, _) ->
    Kind = element(1, Node),
    Read = [c_alias, c_apply, c_case, c_catch, c_clause, c_cons, c_let, c_receive, c_seq, c_try, c_tuple, c_values, c_var],
    case lists:member(Kind, Read) of
        true -> [];
        false -> [{"a form of this release", io_lib:format("a form of this release is not read: ~w", [Kind])}]
    end.

unread(What) -> [{What, [What, " is not read"]}].

primop(match_fail, 1) -> [];
primop(raise, 2) -> [];
primop(Name, Count) -> unread(io_lib:format("the operation ~w/~w", [Name, Count])).

call(M, F, Args, #scope{guarded = Guarded} = S) ->
    A = length(Args),
    case is_answered(M, F, A, S) of
        false when Guarded -> unknown([shown_call(M, F, A), " in a guard"]);
        false -> unknown(shown_call(M, F, A));
        true -> objected(known_calls:objection(S#scope.module, {M, F, A}, Args))
    end.

is_answered(M, F, A, #scope{module = Own, exports = Exports}) ->
    M =:= Own andalso lists:member({F, A}, Exports) orelse known_calls:is_known(M, F, A).

unknown(What) -> [{What, [What, " is not known here"]}].

objected({refuse, What, Text}) -> [{What, Text}];
objected(_) -> [].

note(Text, #scope{origin = Origin, ledger = L} = S) -> S#scope{ledger = ledger:note("~ts", [Text], ledger:within(Origin, L))}.

shown_call(M, F, A) -> io_lib:format("~ts:~tw/~w", [M, F, A]).

shown(Name, Arity) when is_atom(Name) -> shown(atom_to_list(Name), Arity);
shown(Name, Arity) -> io_lib:format("~ts/~w", [Name, Arity]).

%% What is not read of a value that is written: all of it, in its order.
literal_faults(V) when is_integer(V) ->
    [{"an integer past 64 bits", io_lib:format("integer ~w is past 64 bits", [V])} || is_past_limit(V)];
literal_faults(V) when is_float(V) -> [{"a float", io_lib:format("floats are not read: ~w", [V])}];
literal_faults(V) when is_bitstring(V) -> unread("a part of a binary that is no whole bytes");
literal_faults([H | T]) -> literal_faults(H) ++ literal_faults(T);
literal_faults(V) when is_tuple(V) -> lists:flatmap(fun literal_faults/1, tuple_to_list(V));
literal_faults(V) when is_atom(V) ->
    case atom_to_list(V) of
        "not read: " ++ _ -> unread("an atom that begins as the name of a stop does");
        _ -> []
    end;
literal_faults([]) -> [];
literal_faults(_) -> unread("a literal of this kind").

is_past_limit(N) -> N > 9223372036854775807 orelse N < -9223372036854775808.
