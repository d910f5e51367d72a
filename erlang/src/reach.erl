%% Which functions are reached from where processes begin, once calls are applications. What is not reached is left out.
-module(reach).

-export([by_names/2]).

-include("core.hrl").

%% The definitions that are reached from these names, by applications and by functions as values, in their order.
by_names(Definitions, Roots) ->
    Codes = maps:from_list([{N, Code} || #definition{name = N, code = Code} <- Definitions]),
    Seen = closure(Roots, Codes, #{}),
    [D || #definition{name = N} = D <- Definitions, maps:is_key(N, Seen)].

closure([], _, Seen) -> Seen;
closure([Name | T], Codes, Seen) ->
    case maps:is_key(Name, Codes) andalso not maps:is_key(Name, Seen) of
        true -> closure([V || {_, _} = V <- core_tree:free_variables(map_get(Name, Codes))] ++ T, Codes, Seen#{Name => true});
        false -> closure(T, Codes, Seen)
    end.
