%% Which kinds of tables a source makes, as far as its calls of ets:new/2 say it.
-module(table_kinds).

-export([of_source/1, is_none/1, bound/2, possible/3, mentions/2]).

-include("core.hrl").

%%   made    {Name, Kinds} of each call of ets:new/2; Name is any where it is computed
%%   atoms   the atoms of the source that are values, #{Atom => true}; what is not among them is no option of a table
%%   calls   the names of the functions of ets that it calls
-record(tables, {made, atoms, calls}).

of_source(Definitions) ->
    Codes = [Code || #definition{code = Code} <- Definitions],
    Atoms = core_tree:atoms_as_values(Codes),
    Made = fun(Node, Sum) -> [{named(Name), kinds(Options, Atoms)} || {Name, Options} <- new(Node)] ++ Sum end,
    Computed = [{any, kinds(any, Atoms)} || is_map_key(ets, Atoms)],
    Calls = lists:append([core_tree:fold(fun called/2, [], Code) || Code <- Codes]),
    #tables{made = Computed ++ lists:append([core_tree:fold(Made, [], Code) || Code <- Codes]), atoms = Atoms, calls = Calls}.

called(#c_call{module = #c_literal{val = ets}, name = #c_literal{val = F}}, Sum) -> [F | Sum];
called(#c_literal{val = V}, Sum) when is_function(V) ->
    [F || {module, ets} <- [erlang:fun_info(V, module)], {name, F} <- [erlang:fun_info(V, name)]] ++ Sum;
called(_, Sum) -> Sum.

%% Whether no table is made.
is_none(#tables{made = Made}) -> Made =:= [].

%% Whether a function of ets may be called, or a word may be an option of a table.
mentions(Atom, #tables{atoms = Atoms, calls = Calls}) -> is_map_key(Atom, Atoms) orelse lists:member(Atom, Calls).

%% {Name, Options} of what makes a table; ets:new/2 as a value has neither. Nor has a call of a computed module, which can be
%% one of ets where that is a value.
new(#c_call{module = #c_literal{val = ets}, name = #c_literal{val = new}, args = [Name, Options]}) -> [{Name, Options}];
new(#c_literal{val = V}) when is_function(V) -> [{any, any} || V =:= fun ets:new/2];
new(_) -> [].

named(#c_literal{val = Name}) -> Name;
named(_) -> any.

%% The last option of its kind counts; where one is computed, it can be each that the source has a word for.
kinds(Options, Atoms) ->
    Each = options(Options),
    case lists:member(any, Each) of
        true -> [set | [K || K <- [ordered_set, bag, duplicate_bag], is_map_key(K, Atoms)]];
        false -> [lists:last([set | [O || O <- Each, lists:member(O, [set, ordered_set, bag, duplicate_bag])]])]
    end.

options(#c_literal{val = V}) when is_list(V) -> V;
options(#c_cons{hd = Head, tl = Tail}) -> [option(Head) | options(Tail)];
options(_) -> [any].

option(#c_literal{val = V}) -> V;
option(#c_tuple{}) -> pair;
option(_) -> any.

%% ---- of one table

%% Variables of a function that plainly have a table that is made there, with its kinds.
bound(Code, #tables{atoms = Atoms}) ->
    core_tree:fold(fun(#c_let{vars = [#c_var{name = V}], arg = Made}, Sum) ->
                           maps:merge(Sum, maps:from_list([{V, kinds(Options, Atoms)} || {_, Options} <- new(Made)]));
                      (_, Sum) -> Sum
                   end, #{}, Code).

%% The kinds that a table may have which an expression names; Bound is of the function around it.
possible(#c_var{name = V}, Bound, Tables) when is_map_key(V, Bound) -> possible_of([{V, maps:get(V, Bound)}], Tables);
possible(#c_literal{val = Name}, _, #tables{made = Made} = Tables) when is_atom(Name) ->
    possible_of([M || {Other, _} = M <- Made, Other =:= Name orelse Other =:= any], Tables);
possible(_, _, #tables{made = Made} = Tables) -> possible_of(Made, Tables).

possible_of([], #tables{atoms = Atoms}) -> kinds(any, Atoms);
possible_of(Made, _) -> lists:usort(lists:append([Kinds || {_, Kinds} <- Made])).
