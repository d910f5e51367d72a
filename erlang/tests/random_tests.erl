%% Random pieces of source: funs, comprehensions, maps, binaries, receives, matches and failures in one
%% another. What each gives or raises is the same on the real machine and in the explorer.
-module(random_tests).

-export([all/3]).

-define(PIECES, 100).

all(Program, Folder, Library) ->
    rand:seed(exsss, {4, 5, 6}),
    Blocks = [{lists:concat(["piece ", N]), [], piece()} || N <- lists:seq(1, ?PIECES)],
    [snippet_tests:one("random", Block, {Program, Folder, Library}) || Block <- Blocks].

%% A function without arguments, and one that is called with two.
piece() ->
    put(variables, 0),
    {P, Vs} = pattern([], 2),
    {Q, Ws} = pattern(Vs, 2),
    Shown = fun(Call) -> ["try show(", Call, ") catch C:R -> {C, show(R)} end"] end,
    [lists:flatten(Line) || Line <-
        [["run() -> [", Shown("g()"), "] ++ [", Shown(["h(", leaf([]), ", ", leaf([]), ")"]), "]."],
         ["g() -> ", expression([], 5), "."],
         ["h(", P, ", ", Q, ")", guard(Vs ++ Ws), " -> ", expression(Vs ++ Ws, 4), ";"],
         ["h(A, B) -> ", expression(["A", "B"], 4), "."]
         | helpers()]].

%% Functions and maps are shown by words, since they have no text that both sides know.
helpers() ->
    ["f1(X) when is_function(X, 1) -> X(1); f1(#{a := X}) -> {x, X}; f1(X) -> {f1, X}.",
     "f2(X, Y) -> [X | Y].",
     "id(X) -> X.",
     "show(F) when is_function(F, 0) -> fun0; show(F) when is_function(F, 1) -> fun1; show(F) when is_function(F) -> fun_more;",
     "show(M) when is_map(M) -> {map, [show(X) || X <- maps:to_list(M)]}; show(T) when is_tuple(T) -> {tuple, show(tuple_to_list(T))};",
     "show(B) when is_binary(B) -> {binary, binary_to_list(B)};",
     "show([H | T]) -> [show(H) | show(T)]; show(X) -> X."].

pick(L) -> lists:nth(rand:uniform(length(L)), L).
chance(Percent) -> rand:uniform(100) =< Percent.
number() -> integer_to_list(rand:uniform(5) - 1).
atom() -> pick(["a", "b", "c", "k", "ok"]).
key() -> pick(["a", "b", "k"]).

fresh() ->
    N = get(variables) + 1,
    put(variables, N),
    "V" ++ integer_to_list(N).

leaf(Scope) ->
    case rand:uniform(20) of
        N when N =< 11, Scope =/= [] -> pick(Scope);
        N when N =< 15 -> number();
        N when N =< 18 -> atom();
        _ -> pick(["[]", "{}", "#{}", "\"xy\"", "fun f1/1", "fun f2/2", "<<>>", "<<\"xy\">>", "<<1, 2, 3>>", "<<2, 0, 1, 4>>"])
    end.

%% {Text, the variables that it binds}
pattern(Scope, Depth) ->
    case rand:uniform(14) of
        N when N =< 4 -> V = fresh(), {V, [V]};
        5 -> {"_", []};
        6 when Scope =/= [] -> {pick(Scope), []};
        N when N =< 8; Depth =< 0 -> {pick([number(), atom()]), []};
        9 -> pair(Scope, Depth, "{", ", ", "}");
        10 -> pair(Scope, Depth, "[", " | ", "]");
        11 -> {P, Vs} = pattern(Scope, Depth - 1), {["#{", key(), " := ", P, "}"], Vs};
        12 -> {P, Vs} = pattern(Scope, Depth - 1), V = fresh(), {[P, " = ", V], [V | Vs]};
        _ -> binary_pattern()
    end.

%% Segments of known sizes, and perhaps one for the rest.
binary_pattern() ->
    Segments = [binary_segment() || _ <- lists:seq(1, rand:uniform(3) - 1)],
    Last = case chance(50) of true -> V = fresh(), [{[V, "/binary"], [V]}]; false -> [] end,
    {["<<", lists:join(", ", [Text || {Text, _} <- Segments ++ Last]), ">>"], lists:append([Vs || {_, Vs} <- Segments ++ Last])}.

%% One with a size that is computed, and a character.
computed_pattern(Scope) ->
    V = fresh(),
    W = fresh(),
    {["<<", V, ":", pick(["1", "2" | Scope]), "/binary, ", W, "/utf8, _/bits>>"], [V, W]}.

binary_segment() ->
    V = fresh(),
    pick([{V, [V]}, {V, [V]}, {"_", []}, {number(), []}, {[V, ":16"], [V]}, {[V, ":16/little"], [V]}, {[V, "/signed"], [V]},
          {[V, ":2/binary"], [V]}, {[V, ":", pick(["1", "2", "3"]), "/unit:8"], [V]}, {"\"xy\"", []}, {"_:1/binary", []}]).

pair(Scope, Depth, Open, Between, Close) ->
    {P, Vs} = pattern(Scope, Depth - 1),
    {Q, Ws} = pattern(Vs ++ Scope, Depth - 1),
    {[Open, P, Between, Q, Close], Vs ++ Ws}.

guard([]) -> "";
guard(Scope) ->
    V = pick(Scope),
    case chance(60) of
        true -> "";
        false ->
            [" when " | pick([["is_integer(", V, "), ", V, " > 1"], ["is_function(", V, ")"], ["is_function(", V, ", 1)"], ["is_map(", V, ")"],
                              ["is_tuple(", V, ")"], ["is_list(", V, "); is_map(", V, ")"], [V, " =:= a"], ["not is_tuple(", V, ")"],
                              ["is_atom(", V, ") orelse is_function(", V, ", 2)"],
                              ["is_binary(", V, ")"], ["byte_size(", V, ") > 1"], ["size(", V, ") =:= 2"],
                              ["map_size(", V, ") > 0; is_atom(", V, ")"],
                              ["is_map_key(", key(), ", ", V, ")"], ["map_get(", key(), ", ", V, ") =:= ", pick(Scope)],
                              ["not is_map_key(a, ", V, "); bit_size(", V, ") < 10"],
                              ["is_tuple(", V, "), tuple_size(", V, ") =:= 2, element(1, ", V, ") =:= a"]])]
    end.

clause(Scope, Depth) ->
    {P, Vs} = case chance(10) of
        true -> computed_pattern(Scope);
        false -> pattern(Scope, 2)
    end,
    Guard = case chance(10) of
        true when Vs =/= [] -> [" when binary_part(", pick(Vs), ", 0, 1) =:= ", pick(["<<1>>", "<<\"x\">>"])];
        _ -> guard(Vs ++ Scope)
    end,
    [P, Guard, " -> ", expression(Vs ++ Scope, Depth - 1)].

clauses(Scope, Depth) ->
    Last = case chance(60) of true -> [["_ -> ", expression(Scope, Depth - 1)]]; false -> [] end,
    lists:join("; ", [clause(Scope, Depth) || _ <- lists:seq(1, rand:uniform(3))] ++ Last).

%% A fun of so many arguments.
function(Scope, Depth, 1) ->
    case rand:uniform(6) of
        1 ->
            F = "F" ++ fresh(),
            V = fresh(),
            ["fun ", F, "(0) -> ", expression(Scope, Depth - 1), "; ", F, "(", V, ") when is_integer(", V, "), ", V, " > 0 -> {",
             expression([V | Scope], Depth - 2), ", ", F, "(", V, " - 1)} end"];
        2 ->
            Heads = [begin {P, Vs} = pattern([], 2), ["(", P, ")", guard(Vs), " -> ", expression(Vs, Depth - 1)] end || _ <- [1, 2]],
            ["fun ", lists:join("; ", Heads), " end"];
        _ -> plain_function(Scope, Depth, 1)
    end;
function(Scope, Depth, Arity) -> plain_function(Scope, Depth, Arity).

plain_function(Scope, Depth, Arity) ->
    Vs = [fresh() || _ <- lists:seq(1, Arity)],
    ["fun(", lists:join(", ", Vs), ") -> ", expression(Vs ++ Scope, Depth - 1), " end"].

any_function(Scope, Depth) -> function(Scope, Depth, rand:uniform(3) - 1).

expression(Scope, Depth) when Depth =< 0 -> leaf(Scope);
expression(Scope, Depth) -> expression(rand:uniform(26), Scope, Depth).

expression(1, Scope, _) -> leaf(Scope);
expression(2, Scope, D) -> ["{", inner(Scope, D), ", ", inner(Scope, D), "}"];
expression(3, Scope, D) -> ["[", inner(Scope, D), ", ", inner(Scope, D), "]"];
expression(N, Scope, D) when N =< 5 -> any_function(Scope, D);
%% a fun that the compiler knows is not applied with a wrong number of arguments: it may mistake these
expression(N, Scope, D) when N =< 7 ->
    Applied = case chance(60) of true -> any_function(Scope, D - 1); false -> inner(Scope, D) end,
    ["(id(", Applied, "))(", lists:join(", ", [inner(Scope, D) || _ <- lists:seq(1, rand:uniform(3) - 1)]), ")"];
expression(N, Scope, D) when N =< 9 -> ["case ", inner(Scope, D), " of ", clauses(Scope, D), " end"];
expression(N, Scope, D) when N =< 11 ->
    {P, Vs} = pattern([], 1),
    List = case chance(30) of true -> inner(Scope, D); false -> ["[", inner(Scope, D), ", ", inner(Scope, D), "]"] end,
    Filter = case chance(40) of true -> [", ", leaf(Vs ++ Scope), " =:= ", leaf(Vs ++ Scope)]; false -> "" end,
    ["[", expression(Vs ++ Scope, D - 1), " || ", P, " <- ", List, Filter, "]"];
expression(12, Scope, D) -> ["#{", key(), " => ", inner(Scope, D), ", ", key(), " => ", inner(Scope, D), "}"];
expression(13, Scope, D) -> ["(", inner(Scope, D), ")#{", pick([key(), leaf(Scope)]), pick([" => ", " := "]), inner(Scope, D), "}"];
expression(14, Scope, D) -> ["maps:get(", atom(), ", ", inner(Scope, D), ")"];
expression(15, Scope, D) -> V = fresh(), ["begin ", V, " = ", inner(Scope, D), ", ", expression([V | Scope], D - 1), " end"];
expression(16, Scope, D) ->
    ["lists:", pick(["map", "filter", "foreach", "any", "partition"]), "(", any_function(Scope, D - 1), ", ", inner(Scope, D), ")"];
expression(17, Scope, D) -> ["lists:foldl(", function(Scope, D - 1, 2), ", ", inner(Scope, D), ", [", inner(Scope, D), ", ", inner(Scope, D), "])"];
expression(18, Scope, D) ->
    V = fresh(),
    ["begin self() ! ", inner(Scope, D), ", receive {_, ", V, "}", guard([V | Scope]), " -> ", expression([V | Scope], D - 1),
     "; ", V, guard([V | Scope]), " -> ", expression([V | Scope], D - 1), " after 0 -> ", inner(Scope, D), " end end"];
expression(19, Scope, D) ->
    V = fresh(),
    ["try ", inner(Scope, D), " of ", clause(Scope, D - 1), " catch ", pick(["error", "throw", "_"]), ":", V, " -> ", expression([V | Scope], D - 1), " end"];
expression(20, Scope, D) ->
    F = pick(["throw", "error", "f1", "is_function", "is_map", "is_tuple", "show", "is_binary", "byte_size", "iolist_to_binary"]),
    [F, "(", inner(Scope, D), ")"];
expression(21, Scope, D) -> {P, Vs} = pattern(Scope, 2), ["begin ", P, " = ", inner(Scope, D), ", ", expression(Vs ++ Scope, D - 1), " end"];
expression(22, Scope, D) -> ["try ", inner(Scope, D), " after ", inner(Scope, D), ", ", inner(Scope, D), " end"];
expression(23, Scope, D) ->
    Kind = fun() -> pick(["", "", ":16", ":16/little", "/binary", ":1/binary", "/utf8", ":24/signed"]) end,
    ["<<", lists:join(", ", [["(", inner(Scope, D), ")", Kind()] || _ <- lists:seq(1, rand:uniform(3))]), ">>"];
expression(24, Scope, D) ->
    {P, Vs} = binary_segment(),
    ["[", expression(Vs ++ Scope, D - 1), " || <<", P, ">> <= ", inner(Scope, D), "]"];
expression(25, Scope, D) ->
    V = fresh(),
    ["<< <<(", expression([V | Scope], D - 1), ")>> || ", V, " <- [", inner(Scope, D), ", ", inner(Scope, D), "] >>"];
expression(26, Scope, D) -> ["begin ", binary_of(Scope, D), " end"].

%% A match of the parts of a binary that was made.
binary_of(Scope, D) ->
    {P, Vs} = binary_pattern(),
    [P, " = iolist_to_binary([", inner(Scope, D), ", <<\"xy\">>]), ", expression(Vs ++ Scope, D - 1)].

inner(Scope, Depth) -> expression(Scope, Depth - 1).
