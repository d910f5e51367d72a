%% Random calls of the process dictionary: in one another, where something is raised after them, in funs, comprehensions and
%% processes of their own. Each piece gives on the real machine what the explorer finds; its lists are sorted, since the real
%% machine promises no order.
-module(random_dictionaries).

-export([all/3]).

-define(PIECES, 30).
-define(CALLS, 12).

all(Program, Folder, Library) ->
    rand:seed(exsss, {10, 11, 12}),
    Blocks = [{lists:concat(["dictionary ", N]), [], piece()} || N <- lists:seq(1, ?PIECES)],
    [snippet_tests:one("random", Block, {Program, Folder, Library}) || Block <- Blocks].

piece() ->
    put(variables, 0),
    Calls = [expression(3) || _ <- lists:seq(1, ?CALLS)],
    [lists:flatten(["run() -> [", lists:join(",\n    ", Calls), ", lists:sort(get())]."]),
     "id(X) -> X.",
     "in_child(F) -> Me = self(), P = spawn(fun() -> Me ! {self(), F()} end), receive {P, X} -> X end."].

fresh() ->
    N = get(variables) + 1,
    put(variables, N),
    "V" ++ integer_to_list(N).

pick(L) -> lists:nth(rand:uniform(length(L)), L).

key() -> pick(["a", "b", "c", "1", "2", "[]", "{a, 1}", "{}", "[a | b]", "\"k\""]).

value() -> pick(["1", "2", "undefined", "x", "[1, 2]", "{v}", "[]"]).

expression(Depth) when Depth =< 0 -> value();
expression(Depth) -> expression(rand:uniform(20), Depth).

expression(N, Depth) when N =< 6 -> ["put(", key(), ", ", expression(Depth - 2), ")"];
expression(N, _) when N =< 8 -> ["get(", key(), ")"];
expression(9, _) -> ["erase(", key(), ")"];
expression(10, _) -> "lists:sort(get())";
expression(11, _) -> "lists:sort(get_keys())";
expression(12, _) -> ["lists:sort(get_keys(", value(), "))"];
expression(13, _) -> pick(["lists:sort(erase())", "length(get())", "get_keys(nothing)"]);
expression(14, Depth) -> ["(catch {", several(Depth), ", ", pick(["throw", "exit"]), "(", expression(Depth - 1), "), ", several(Depth), "})"];
expression(15, Depth) ->
    R = fresh(),
    ["try {", several(Depth), ", error(", expression(Depth - 1), ")} catch error:", R, " -> {", R, ", ", several(Depth), "} after ", several(Depth), " end"];
expression(16, Depth) -> ["in_child(fun() -> {", several(Depth), ", lists:sort(get())} end)"];
expression(17, Depth) -> ["(id(fun() -> {", several(Depth), "} end))()"];
expression(18, Depth) ->
    K = fresh(),
    ["[{", K, ", ", expression(Depth - 1), "} || ", K, " <- [", key(), ", ", key(), "], get(", K, ") =/= ", value(), "]"];
expression(19, Depth) -> ["case ", expression(Depth - 1), " of ", value(), " -> ", expression(Depth - 1), "; _ -> ", expression(Depth - 1), " end"];
expression(20, _) -> ["apply(erlang, id(", pick(["get", "erase"]), "), [", key(), "])"].

several(Depth) -> lists:join(", ", [expression(Depth - 1) || _ <- lists:seq(1, rand:uniform(2))]).
