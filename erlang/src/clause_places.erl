%% Where functions and their clauses are in the source, which the text of a module does not say: so a report can name the clause
%% that OTP's behaviours call.
-module(clause_places).

-export([text/2]).

-include("core.hrl").

%% A line for each function of the source, a term of Erlang: {{Name, Arity}, Places}. Of a function that does no more than
%% choose between clauses these are a list, with {File, Line} or none for each of them in their order; of another one it is
%% its own place, or none where that may be another clause than the one that runs.
text(File, Definitions) ->
    [io_lib:format("~0tp.~n", [{Name, places(Code, File)}]) || #definition{name = Name, origin = source, code = Code} <- Definitions].

places(Function, File) ->
    case is_divided(Function) of
        true -> none;
        false -> of_clauses(Function, File)
    end.

of_clauses(#c_fun{body = #c_case{arg = Argument, clauses = Clauses}} = Function, File) ->
    case is_there(Argument) of
        true -> [place(Clause, File) || Clause <- Clauses];
        false -> place(Function, File)
    end;
of_clauses(Function, File) -> place(Function, File).

%% Whether the clauses after some were made a function: then one that is chosen need not match (clause_forms).
is_divided(Function) -> core_tree:fold(fun(Node, Found) -> Found orelse is_rest(Node) end, false, Function).

is_rest(#c_apply{op = #c_var{name = {Name, _}}}) -> lists:prefix("clauses in ", atom_to_list(Name));
is_rest(_) -> false.

%% Whether nothing is done before a clause is chosen.
is_there(#c_values{es = Es}) -> lists:all(fun is_there/1, Es);
is_there(#c_var{}) -> true;
is_there(_) -> false.

place(Node, File) ->
    case core_tree:place(Node, {File, 0}) of
        {_, 0} -> none;
        {Other, Line} -> {filename:basename(Other), Line}
    end.
