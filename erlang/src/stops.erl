%% What is not read, where a process comes to it. In its place is a stop: the process looks up a table whose name says what
%% is not read and where, which is refused and so listed, and then waits for ever. No `catch` sees that, and nobody is told
%% of an end. What the other processes do from there on they can do in Erlang too, since a process may always be slow.
-module(stops).

-export([instead/5, as_body/1, name_of/3, leave_out/2, put/4]).

-include("core.hrl").

%% What takes the place of an expression that is not read, and the ledger. It is a stop, before which the parts of the
%% expression are evaluated; with --strict it is these parts, and a refusal. The fault is {What, Text}, where Text says in a
%% sentence that What is not read.
instead({What, Text}, Parts, Place, Home, Ledger) ->
    case ledger:is_strict(Ledger) of
        true -> {#c_tuple{es = Parts}, ledger:refuse(Place, Home, Text, Ledger)};
        false -> {core_tree:evaluated(Parts, stop(What, Place, Home)), Ledger}
    end.

%% ---- the stop

stop(What, Place, Home) -> core_tree:apply_to(notes(Place), name(), [core_tree:literal(name_of(What, Place, Home))]).

name() -> {'not read', 1}.

notes({_, 0}) -> [];
notes({File, Line}) -> [Line, {file, File}].

%% The name of the table; an atom has at most 255 characters.
name_of(What, Place, Home) -> list_to_atom(short(lists:flatten(io_lib:format("not read: ~ts~ts (in ~ts)", [What, at(Place), Home])))).

at({_, 0}) -> "";
at({File, Line}) -> io_lib:format(" at ~ts:~w", [filename:basename(File), Line]).

short(Text) when length(Text) > 255 -> lists:sublist(Text, 253) ++ "..";
short(Text) -> Text.

%% The function that a stop applies.
definition() ->
    Table = core_tree:variable('Table'),
    LookUp = #c_catch{body = core_tree:call([], ets, lookup, [Table, core_tree:literal(none)])},
    Wait = #c_receive{clauses = [], timeout = core_tree:literal(infinity), action = core_tree:literal(ok)},
    #definition{name = name(), origin = library, home = "not read/1",
                code = #c_fun{vars = [Table], body = #c_seq{arg = LookUp, body = Wait}}}.

%% A stop as the whole body of a clause, however many values that has to give.
as_body(Stop) ->
    #c_seq{arg = Stop, body = #c_primop{name = core_tree:literal(match_fail), args = [core_tree:literal(if_clause)]}}.

%% ---- clauses that match nothing

%% The tree without the clauses that never match: no value is a float, an integer past 64 bits or a part of a byte, since
%% nothing that is read makes one, and so no map has one as a key.
leave_out(Home, Tree) ->
    {New, none} = core_tree:walk(fun(N, P, S) -> {inside, kept(N, P, Home), S} end, {"", 0}, none, Tree),
    New.

kept(#c_case{clauses = Clauses} = N, Place, Home) ->
    case lists:partition(fun never/1, Clauses) of
        {[], _} -> N;
        {[First | _], []} -> N#c_case{clauses = [any(First, Place, Home)]};
        {_, Some} -> N#c_case{clauses = Some}
    end;
kept(#c_receive{clauses = Clauses} = N, _, _) -> N#c_receive{clauses = [C || C <- Clauses, not never(C)]};
kept(N, _, _) -> N.

never(#c_clause{pats = Patterns}) -> lists:any(fun nothing/1, Patterns).

%% (what is in a pattern of a binary is not the value of anything)
nothing(#c_binary{}) -> false;
nothing(#c_literal{val = V}) -> not is_made(V);
nothing(Pattern) ->
    {_, Found} = core_tree:children(fun(P, Sum) -> {P, Sum orelse nothing(P)} end, false, Pattern),
    Found.

%% Whether a value can be made of what is read.
is_made(V) when is_integer(V) -> not readable:is_past_limit(V);
is_made([H | T]) -> is_made(H) andalso is_made(T);
is_made(V) when is_tuple(V) -> is_made(tuple_to_list(V));
is_made(V) when is_map(V) -> is_made(maps:to_list(V));
is_made(V) when is_bitstring(V) -> is_binary(V);
is_made(V) -> not is_float(V).

%% The clause that is taken where none is left: the compiler knows that one of those matches.
any(#c_clause{pats = Patterns}, Place, Home) ->
    Vars = [core_tree:variable(list_to_atom(lists:concat(["unread", I, "@"]))) || I <- lists:seq(1, length(Patterns))],
    core_tree:clause(Vars, as_body(stop("a pattern", Place, Home))).

%% ---- expressions and guards

%% The definitions with stops where one of their expressions is not read; those that only come after a stop are left out.
%% With --strict those of the source stay as they are.
put(Definitions, Module, Exports, Ledger) ->
    Scope = readable:scope(Module, Exports),
    Stopped = [case ledger:is_strict(ledger:within(D#definition.origin, Ledger)) of
                   true -> D;
                   false -> stopped(D, Scope)
               end || D <- Definitions],
    Reached = reach:by_names(Stopped ++ [definition()], [{main, 0} | Exports]),
    {Reached, lists:foldl(fun noted/2, Ledger, [D || #definition{origin = source} = D <- Reached])}.

stopped(#definition{home = Home, code = #c_fun{body = Body} = Fun} = D, Scope) ->
    D#definition{code = Fun#c_fun{body = walked(Body, core_tree:place(Fun, {"", 0}), {Home, Scope})}}.

walked(Tree, Place, Around) ->
    {New, none} = core_tree:walk(fun(N, P, S) -> rule(N, P, Around, S) end, Place, none, Tree),
    New.

rule(#c_apply{op = #c_var{name = {'not read', 1}}} = N, _, _, S) -> {done, N, S};
rule(#c_apply{op = #c_var{name = {_, _} = Name}, args = Args} = N, Place, Around, S) ->
    %% what is handed on to a stop is its name already
    {Looked, Kept} = case dispatchers:is_one(Name) of
        true -> lists:split(length(Args) - 1, Args);
        false -> {Args, []}
    end,
    {done, N#c_apply{args = [walked(A, Place, Around) || A <- Looked] ++ Kept}, S};
rule(#c_receive{clauses = Clauses} = N, Place, Around, S) ->
    %% guards that choose a message stay as they are, and are refused
    Bodies = [C#c_clause{body = walked(C#c_clause.body, Place, Around)} || C <- Clauses],
    {New, S} = core_tree:children(fun(Part, T) -> {walked(Part, Place, Around), T} end, S, N#c_receive{clauses = []}),
    {done, New#c_receive{clauses = Bodies}, S};
rule(#c_clause{guard = Guard, body = Body} = N, Place, {Home, Scope} = Around, S) ->
    case guard_fault(Guard, Place, Scope) of
        none -> {done, N#c_clause{body = walked(Body, Place, Around)}, S};
        {What, Where} -> {done, N#c_clause{guard = core_tree:literal(true), body = as_body(stop(What, Where, Home))}, S}
    end;
rule(N, Place, {Home, Scope}, S) ->
    case can_stop(N) andalso readable:faults(N, Scope) of
        [{What, _} | _] -> {again, core_tree:evaluated(parts(N), stop(What, Place, Home)), S};
        _ -> {inside, N, S}
    end.

%% What is not read of a guard first, and its place. Whether such a clause is taken cannot be known, so it is, and stops.
guard_fault(Guard, Place, Scope) ->
    Guarded = readable:in_guard(Scope),
    Find = fun(N, Where, Found) -> {inside, N, Found ++ [{What, Where} || {What, _} <- readable:faults(N, Guarded)]} end,
    case core_tree:walk(Find, Place, [], Guard) of
        {_, []} -> none;
        {_, [First | _]} -> First
    end.

%% Expressions; other forms that are not read, as a receive that was not restored, are refused where they are written.
can_stop(#c_literal{}) -> true;
can_stop(#c_call{}) -> true;
can_stop(_) -> false.

%% What is evaluated before.
parts(#c_literal{}) -> [];
parts(#c_call{module = M, name = F, args = Args}) -> [M, F | Args].

%% Each stop of the source is noted.
noted(#definition{origin = library}, Ledger) -> Ledger;
noted(#definition{code = Code}, Ledger) ->
    Name = name(),
    core_tree:fold(fun(#c_apply{op = #c_var{name = N}, args = [#c_literal{val = Table}]}, L) when N =:= Name ->
                           "not read: " ++ What = atom_to_list(Table),
                           ledger:note("a process stops where it comes to ~ts", [What], L);
                      (_, L) -> L
                   end, Ledger, Code).
