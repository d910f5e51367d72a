%% `apply fun`: one function for each number of arguments. It takes a function that is
%% a value apart and applies the function that it represents.
-module(apply_fun).

-export([definition/3]).

-include("core.hrl").

definition(Size, Arity, Values) ->
    Function = core_tree:variable('F'),
    Arguments = numbered("A", Arity),
    Clauses = [clause(Size, Arguments, V) || {_, A, _} = V <- Values, A =:= Arity],
    Given = lists:foldr(fun(V, T) -> #c_cons{hd = V, tl = T} end, core_tree:literal([]), Arguments),
    {Any, _} = odd_tuples:function_pattern(Size),
    BadArity = #c_tuple{es = [core_tree:literal(badarity), #c_tuple{es = [Function, Given]}]},
    BadFun = #c_tuple{es = [core_tree:literal(badfun), Function]},
    Last = [core_tree:clause([Any], core_tree:raise_error([], BadArity)),
            core_tree:clause([core_tree:variable('other@')], core_tree:raise_error([], BadFun))],
    {Name, _} = Key = function_values:apply_name(Arity),
    #definition{name = Key, origin = library, home = atom_to_list(Name),
                code = #c_fun{vars = [Function | Arguments], body = #c_case{arg = Function, clauses = Clauses ++ Last}}}.

clause(Size, Arguments, {{Name, _} = Target, Arity, Count}) ->
    Taken = numbered("V", Count),
    core_tree:clause([odd_tuples:function(Size, Name, Arity, Taken)], core_tree:apply_to([], Target, Arguments ++ Taken)).

numbered(Text, Count) -> [core_tree:variable(list_to_atom(Text ++ integer_to_list(I))) || I <- lists:seq(1, Count)].
