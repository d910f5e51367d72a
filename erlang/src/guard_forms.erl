%% Guards that ask for sizes and keys, without functions: no function is applied in a guard here.
-module(guard_forms).

-export([sizes/1, keys/1, calls/2, outside/1, is_large/1, map_with/3]).

-include("core.hrl").

%% How many keys of a map can be looked at in the guard of a receive.
-define(KEYS, 16).

%% ---- sizes

%% The guard with the length of a list in the place of the size of a map or a binary.
sizes(Guard) ->
    {New, none} = core_tree:walk(fun size_rule/3, {"", 0}, none, Guard),
    New.

size_rule(#c_call{module = #c_literal{val = erlang}, name = #c_literal{val = F}, args = [Value]} = N, _, S) ->
    case lists:member(F, [map_size, byte_size, bit_size, size]) of
        true -> {inside, size_of(F, Value), S};
        false -> {inside, N, S}
    end;
size_rule(Node, _, S) -> {inside, Node, S}.

%% The value is looked at more than once, so it has a name.
size_of(F, Value) ->
    V = core_tree:variable('sized@'),
    #c_let{vars = [V], arg = Value, body = #c_case{arg = V, clauses = size_clauses(F, V)}}.

size_clauses(map_size, V) -> sized(fun odd_tuples:map/1, fun length_of/1) ++ [other(bad_map(V))];
size_clauses(byte_size, _) -> sized(fun odd_tuples:binary/1, fun length_of/1) ++ [other(core_tree:literal(badarg))];
size_clauses(bit_size, _) ->
    Bits = fun(Bytes) -> core_tree:call_erlang([], '*', [length_of(Bytes), core_tree:literal(8)]) end,
    sized(fun odd_tuples:binary/1, Bits) ++ [other(core_tree:literal(badarg))];
size_clauses(size, V) ->
    Tuple = core_tree:clause([V], core_tree:call_erlang([], is_tuple, [V]), core_tree:call_erlang([], tuple_size, [V])),
    sized(fun odd_tuples:binary/1, fun length_of/1) ++ [Tuple, other(core_tree:literal(badarg))].

sized(Odd, Size) ->
    Items = core_tree:variable('items@'),
    [core_tree:clause([Odd(Items)], Size(Items))].

length_of(List) -> core_tree:call_erlang([], length, [List]).

bad_map(V) -> #c_tuple{es = [core_tree:literal(badmap), V]}.

other(Reason) -> core_tree:clause([core_tree:variable('other@')], core_tree:raise_error([], Reason)).

%% ---- functions

%% Whether a guard has calls of these functions of erlang, {'erlang:f', Arity} => _, or makes a binary, which needs some.
calls(Guard, Functions) ->
    core_tree:fold(fun(#c_call{module = #c_literal{val = erlang}, name = #c_literal{val = F}, args = Args}, Found) when is_atom(F) ->
                           Found orelse maps:is_key({list_to_atom("erlang:" ++ atom_to_list(F)), length(Args)}, Functions);
                      (#c_binary{}, _) -> true;
                      (_, Found) -> Found
                   end, false, Guard).

%% The guard as an expression elsewhere. An error in it is false.
outside(Guard) ->
    {New, none} = core_tree:walk(fun outside_rule/3, {"", 0}, none, tried(Guard)),
    New.

tried(Guard) ->
    V = core_tree:variable('guard@'),
    #c_try{arg = Guard, vars = [V], body = V, evars = [core_tree:variable('class@'), core_tree:variable('reason@')],
           handler = core_tree:literal(false)}.

%% In a guard the compiler's `try` has two variables, and elsewhere three.
outside_rule(#c_try{evars = [_, _] = Caught} = N, _, S) -> {inside, N#c_try{evars = Caught ++ [core_tree:variable('trace@')]}, S};
outside_rule(Node, _, S) -> {inside, Node, S}.

%% ---- keys

%% The guard with a look at each of so many keys in the place of is_map_key/2 and map_get/2 of variables that it does not
%% bind itself, and these variables: where such a map has more keys, what the guard gives is not known.
keys(Guard) ->
    Free = core_tree:free_variables(Guard),
    {New, Maps} = core_tree:walk(fun(N, _, S) -> key_rule(N, Free, S) end, {"", 0}, [], Guard),
    {New, lists:usort(Maps)}.

key_rule(#c_call{module = #c_literal{val = erlang}, name = #c_literal{val = F}, args = [Key, #c_var{name = Name} = Map]} = N, Free, S) ->
    case lists:member(F, [is_map_key, map_get]) andalso lists:member(Name, Free) of
        true -> {inside, key(F, Key, Map), [Map#c_var{anno = []} | S]};
        false -> {inside, N, S}
    end;
key_rule(Node, _, S) -> {inside, Node, S}.

key(is_map_key, Key, Map) ->
    #c_case{arg = Map, clauses = with(Key, core_tree:variable('item@'), core_tree:literal(true)) ++
                [core_tree:clause([odd_tuples:map(core_tree:variable('items@'))], core_tree:literal(false)), other(bad_map(Map))]};
key(map_get, Key, Map) ->
    V = core_tree:variable('item@'),
    NoKey = core_tree:raise_error([], #c_tuple{es = [core_tree:literal(badkey), Key]}),
    #c_case{arg = Map, clauses = with(Key, V, V) ++
                [core_tree:clause([odd_tuples:map(core_tree:variable('items@'))], NoKey), other(bad_map(Map))]}.

%% {ok, Value} of a map that has this key, or error.
map_with(Key, Map, Value) ->
    #c_case{arg = Map, clauses = with(Key, Value, #c_tuple{es = [core_tree:literal(ok), Value]}) ++
                [core_tree:clause([core_tree:variable('other@')], core_tree:literal(error))]}.

%% A clause for each place at which a pair can be.
with(Key, Value, Body) -> [at(Place, Key, Value, Body) || Place <- lists:seq(0, ?KEYS - 1)].

at(Place, Key, Value, Body) ->
    Before = [core_tree:variable(list_to_atom(lists:concat(["pair@", I]))) || I <- lists:seq(1, Place)],
    {Its, Guard} = case Key of
        #c_literal{} -> {Key, core_tree:literal(true)};
        _ -> Other = core_tree:variable('key@'), {Other, core_tree:call_erlang([], '=:=', [Other, Key])}
    end,
    Pairs = binary_forms:in_front(Before ++ [#c_tuple{es = [Its, Value]}], core_tree:variable('pairs@')),
    core_tree:clause([odd_tuples:map(Pairs)], Guard, Body).

%% Whether a value is a map of more keys.
is_large(Map) ->
    Pairs = core_tree:variable('pairs@'),
    Many = core_tree:call_erlang([], '>', [length_of(Pairs), core_tree:literal(?KEYS)]),
    #c_case{arg = Map, clauses = [core_tree:clause([odd_tuples:map(Pairs)], Many, core_tree:literal(true)),
                                  core_tree:clause([core_tree:variable('other@')], core_tree:literal(false))]}.
