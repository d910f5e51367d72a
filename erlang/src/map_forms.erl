%% Maps: what makes and changes them becomes calls of the module maps.
-module(map_forms).

-export([is_map_here/1, changed/1, text_of_note/0]).

-include("core.hrl").

text_of_note() -> "maps are tuples here: they sort among tuples, element/2 and tuple_size/1 take them, and their keys are in the order of terms".

is_map_here(#c_map{}) -> true;
is_map_here(#c_literal{val = V}) -> is_map(V);
is_map_here(_) -> false.

%% M#{K => V, ..} and M#{K := V, ..}
changed(#c_map{anno = Notes, arg = Map, es = Pairs}) ->
    lists:foldl(fun(#c_map_pair{op = #c_literal{val = Op}, key = K, val = V}, M) ->
                        core_tree:call(Notes, maps, function_of(Op), [K, V, M])
                end, Map, Pairs).

function_of(assoc) -> put;
function_of(exact) -> update.
