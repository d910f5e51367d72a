%% The tables of atoms and their texts, which atom_to_list/1 and list_to_atom/1 of the library look into. They get the atoms
%% that are written somewhere in the program, or in what of the library is copied in. Names of what is called do not count.
-module(atom_texts).

-export([complete/1, made/1]).

-include("core.hrl").

%% The definitions, where the tables among them have all these atoms.
complete(Definitions) ->
    case [D || #definition{name = Name} = D <- Definitions, is_table(Name)] of
        [] -> Definitions;
        _ ->
            Atoms = core_tree:atoms_as_values([Code || #definition{code = Code} <- Definitions]),
            [completed(D, [A || A <- lists:sort(maps:keys(Atoms)), not is_stop(A)]) || D <- Definitions]
    end.

%% The atoms that the explorer makes by itself, which this table has before it is completed.
made(Library) ->
    #c_fun{body = #c_case{clauses = Clauses}} = packed_functions:function({'text of atom', 1}, Library),
    [Atom || #c_clause{pats = [#c_literal{val = Atom}]} <- Clauses].

is_table(Name) -> Name =:= {'text of atom', 1} orelse Name =:= {'atom of text', 1}.

%% What the converter itself calls a stop is no atom of the program.
is_stop(Atom) -> lists:prefix("not read: ", atom_to_list(Atom)).

%% ---- the tables: a function with a case over its argument, whose last clause stops

completed(#definition{name = {Table, 1}, code = #c_fun{body = #c_case{clauses = Clauses} = Case} = Fun} = D, Atoms)
  when Table =:= 'text of atom'; Table =:= 'atom of text' ->
    Known = [V || #c_clause{pats = [#c_literal{val = V}]} <- Clauses],
    Rows = [row(Table, A) || A <- Atoms],
    New = [core_tree:clause([core_tree:literal(K)], core_tree:literal(V)) || {K, V} <- Rows, not lists:member(K, Known)],
    D#definition{code = Fun#c_fun{body = Case#c_case{clauses = New ++ Clauses}}};
completed(D, _) -> D.

row('text of atom', Atom) -> {Atom, atom_to_list(Atom)};
row('atom of text', Atom) -> {atom_to_list(Atom), Atom}.
