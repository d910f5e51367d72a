%% What applications are configured with: values that are given with --env, and those of application files beside compiled
%% modules. They become two functions, which those of the module application ask (library/otp_functions.erl).
-module(environment).

-export([functions/1]).

-include("core.hrl").

%% Of [{Application, Key, Value}], where a later one takes the place of an earlier one:
%%   'application environment'/2    of an application and a key: {ok, Value} or undefined
%%   'application environment'/1    of an application: [{Key, Value}]
functions(Set) ->
    Values = maps:from_list([{{Application, Key}, Value} || {Application, Key, Value} <- Set]),
    Sorted = lists:sort(maps:to_list(Values)),
    Applications = lists:usort([A || {{A, _}, _} <- Sorted]),
    Of = fun(A) -> [{Key, Value} || {{B, Key}, Value} <- Sorted, A =:= B] end,
    #{{'application environment', 2} => choice(2, [{[A, Key], {ok, Value}} || {{A, Key}, Value} <- Sorted], undefined),
      {'application environment', 1} => choice(1, [{[A], Of(A)} || A <- Applications], [])}.

choice(Count, Cases, Else) ->
    Vars = [core_tree:variable(list_to_atom("A" ++ integer_to_list(I))) || I <- lists:seq(1, Count)],
    Others = [core_tree:variable(list_to_atom(lists:concat(["other", I, "@"]))) || I <- lists:seq(1, Count)],
    Clauses = [core_tree:clause([core_tree:literal(P) || P <- Patterns], core_tree:literal(Value)) || {Patterns, Value} <- Cases],
    Asked = case Vars of [One] -> One; _ -> #c_values{es = Vars} end,
    #c_fun{vars = Vars, body = #c_case{arg = Asked, clauses = Clauses ++ [core_tree:clause(Others, core_tree:literal(Else))]}}.
