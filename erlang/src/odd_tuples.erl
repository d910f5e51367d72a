%% Functions, maps and binaries are values that the explorer does not have. They become
%% tuples of a size that no tuple of the module has, so that no pattern meets one:
%%   {'fun', Name, Arity, [Value, ..], '-', ..}    Name is the function, Value what it took along
%%   {'map', [{Key, Value}, ..], '-', ..}          in the order of keys
%%   {'binary', [Byte, ..], '-', ..}
-module(odd_tuples).

-export([free_size/1, function/4, function_pattern/1, has_arity/3, is_any_function/2, map/1, binary/1, replace/2]).

-include("core.hrl").

%% The least size from 4 on that no tuple of these trees has.
free_size(Trees) ->
    Sizes = lists:foldl(fun(T, Sum) -> core_tree:fold(fun sizes/2, Sum, T) end, [], Trees),
    hd([N || N <- lists:seq(4, 300), not lists:member(N, Sizes)]).

sizes(#c_tuple{es = Es}, Sum) -> [length(Es) | Sum];
sizes(#c_literal{val = V}, Sum) -> literal_sizes(V, Sum);
sizes(#c_call{name = #c_literal{val = is_record}, args = [_, _, #c_literal{val = N}]}, Sum) -> [N | Sum];
sizes(_, Sum) -> Sum.

literal_sizes(V, Sum) when is_tuple(V) -> lists:foldl(fun literal_sizes/2, [tuple_size(V) | Sum], tuple_to_list(V));
literal_sizes([H | T], Sum) -> literal_sizes(T, literal_sizes(H, Sum));
literal_sizes(V, Sum) when is_map(V) -> literal_sizes(maps:to_list(V), Sum);
literal_sizes(_, Sum) -> Sum.

%% The value of a function of this name and arity that took these values along.
function(Size, Name, Arity, Values) ->
    Taken = lists:foldr(fun(V, T) -> #c_cons{hd = V, tl = T} end, core_tree:literal([]), Values),
    padded(Size, [core_tree:literal('fun'), core_tree:literal(Name), core_tree:literal(Arity), Taken]).

%% Any function; its arity is the variable.
function_pattern(Size) ->
    Arity = core_tree:variable('arity@'),
    {padded(Size, [core_tree:literal('fun'), core_tree:variable('name@'), Arity, core_tree:variable('values@')]), Arity}.

padded(Size, Parts) -> #c_tuple{es = Parts ++ [core_tree:literal('-') || _ <- lists:seq(length(Parts) + 1, Size)]}.

is_tagged(Size, Tag, Value) ->
    core_tree:call_erlang([], is_record, [Value, core_tree:literal(Tag), core_tree:literal(Size)]).

%% What a pass before writes for the map of these pairs, and for the binary of these bytes: the size is not known then.
map(Pairs) -> #c_tuple{anno = [odd], es = [core_tree:literal('$map'), Pairs]}.
binary(Bytes) -> #c_tuple{anno = [odd], es = [core_tree:literal('$binary'), Bytes]}.

%% Literals of maps and binaries, {'$map', Pairs} and {'$binary', Bytes} of the library and of the passes before, and the
%% tests of types.
replace(Size, #definition{origin = Origin, code = Code} = D) ->
    {New, _} = core_tree:walk(fun(N, _, S) -> rule(Origin, Size, N, S) end, {"", 0}, none, Code),
    D#definition{code = New}.

rule(library, Size, #c_literal{val = {Tag, Items}} = N, S) when Tag =:= '$map'; Tag =:= '$binary' ->
    {done, N#c_literal{val = odd_literal(Size, tag(Tag), Items)}, S};
rule(_, Size, #c_literal{val = V} = N, S) -> {done, N#c_literal{val = literal(Size, V)}, S};
rule(Origin, Size, #c_tuple{anno = Notes, es = [#c_literal{val = Tag}, Items]}, S)
  when Tag =:= '$map' orelse Tag =:= '$binary', Origin =:= library orelse Notes =:= [odd] ->
    {inside, padded(Size, [core_tree:literal(tag(Tag)), Items]), S};
rule(_, Size, #c_call{module = #c_literal{val = erlang}, name = #c_literal{val = Name}, args = Args} = N, S) ->
    case {Name, Args} of
        {is_map, [V]} -> {inside, is_tagged(Size, map, V), S};
        {is_binary, [V]} -> {inside, is_tagged(Size, binary, V), S};
        {is_bitstring, [V]} -> {inside, is_tagged(Size, binary, V), S};
        {is_function, [V]} -> {inside, is_tagged(Size, 'fun', V), S};
        {is_function, [V, Arity]} -> {inside, has_arity(Size, V, Arity), S};
        {is_tuple, [V]} -> is_plain_tuple(Size, N, V, S);
        _ -> {inside, N, S}
    end;
rule(_, _, Node, S) -> {inside, Node, S}.

tag('$map') -> map;
tag('$binary') -> binary.

literal(Size, V) when is_map(V) -> odd_literal(Size, map, lists:sort([{literal(Size, K), literal(Size, X)} || {K, X} <- maps:to_list(V)]));
literal(Size, V) when is_binary(V) -> odd_literal(Size, binary, binary_to_list(V));
literal(Size, [H | T]) -> [literal(Size, H) | literal(Size, T)];
literal(Size, V) when is_tuple(V) -> list_to_tuple([literal(Size, X) || X <- tuple_to_list(V)]);
literal(_, V) -> V.

odd_literal(Size, Tag, Items) -> list_to_tuple([Tag, Items | lists:duplicate(Size - 2, '-')]).

%% Whether a value is a function.
is_any_function(Size, Value) -> is_tagged(Size, 'fun', Value).

%% Whether a value is a function of that arity.
has_arity(Size, Value, Arity) ->
    {Pattern, Its} = function_pattern(Size),
    #c_case{arg = Value,
            clauses = [core_tree:clause([Pattern], core_tree:call_erlang([], '=:=', [Its, Arity]), core_tree:literal(true)),
                       core_tree:clause([core_tree:variable('other@')], core_tree:literal(false))]}.

%% A tuple that represents no other value. The value is looked at more than once, so it needs a name.
is_plain_tuple(Size, Node, Value, S) ->
    V = core_tree:variable('tuple@'),
    IsNone = fun(Tag, Sum) -> core_tree:call_erlang([], 'and', [Sum, core_tree:call_erlang([], 'not', [is_tagged(Size, Tag, V)])]) end,
    Plain = lists:foldl(IsNone, Node#c_call{args = [V]}, ['fun', map, binary]),
    {Value1, S1} = core_tree:walk(fun(N, _, T) -> rule(source, Size, N, T) end, {"", 0}, S, Value),
    {done, #c_let{vars = [V], arg = Value1, body = Plain}, S1}.
